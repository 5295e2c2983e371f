//! Facts about line mode, and the small tools that they share.

mod failures;
mod kinds;
mod longest;
mod pieces;
mod samples;

use super::*;
use crate::made::{finished, section, with_byte};
use crate::samples::{
    whole, FIRST_TEXT_OF_003, RESTORED_TEXT_OF_003, SECOND_TEXT_OF_003, TEXT_OF_004,
};
use crate::text::section_to_text;

fn text(section: &[u8]) -> String {
    String::from_utf8(section_to_text(section, usize::MAX).unwrap()).unwrap()
}

/// A time signal with a segment of the type 0x34 that has this duration, and behind it these
/// descriptors (hex).
fn cue(ticks: u64, others: &str) -> Vec<u8> {
    let segment = format!("02 14 43554549 00000007 7F FF {ticks:010x} 00 00 34 01 01");
    let descriptors = format!("{segment} {others}").replace(' ', "");
    let loop_length = descriptors.len() / 2;
    section(1, &format!("06 7F {loop_length:04x} {descriptors}"))
}

/// What line mode writes for an input that is read in these pieces.
fn tallied(pieces: &[&[u8]]) -> String {
    let mut output = Vec::new();
    tally(Pieces::new(pieces), &mut output).expect("nothing fails");
    String::from_utf8(output).expect("plain text")
}

/// An input that comes in these pieces, none of them empty, with an interruption before each.
struct Pieces<'a> {
    left: &'a [&'a [u8]],
    interrupted: bool,
}

impl<'a> Pieces<'a> {
    fn new(pieces: &'a [&'a [u8]]) -> Pieces<'a> {
        Pieces {
            left: pieces,
            interrupted: false,
        }
    }
}

impl Read for Pieces<'_> {
    fn read(&mut self, room: &mut [u8]) -> io::Result<usize> {
        self.interrupted = !self.interrupted;
        if self.interrupted {
            return Err(ErrorKind::Interrupted.into());
        }
        let Some((first, left)) = self.left.split_first() else {
            return Ok(0);
        };
        assert!(!first.is_empty() && first.len() <= room.len());
        room[..first.len()].copy_from_slice(first);
        self.left = left;
        Ok(first.len())
    }
}
