//! Facts about the reader of sections, and the small tools that they share.

mod commands;
mod descriptors;
mod rows;
mod samples;

use super::*;
use crate::hex::from_hex;
use crate::made::{finished, section};

/// The row that refuses such a section, 0 for none.
fn row(splice_command_length: u16, inside: &str) -> u8 {
    accept(&section(splice_command_length, inside))
        .err()
        .unwrap_or(0)
}

/// The command of such a section.
fn command(splice_command_length: u16, inside: &str) -> Command {
    clear(&section(splice_command_length, inside)).command
}

/// The inside of a section that is accepted and not sealed.
fn clear(section: &[u8]) -> Clear {
    match accept(section).expect("accepted").inside {
        Inside::Clear(clear) => clear,
        Inside::Sealed(_) => panic!("sealed"),
    }
}

/// The fields put one behind another again.
fn written_back(section: &Section) -> Vec<u8> {
    let mut bits = String::new();
    for item in section.items() {
        match item {
            Item::Number(_, width, value) => bits += &format!("{value:0width$b}"),
            Item::Bytes(_, bytes) => bits.extend(bytes.iter().map(|byte| format!("{byte:08b}"))),
            Item::Open(_) | Item::Close => {}
        }
    }
    let bits: Vec<char> = bits.chars().collect();
    assert!(bits.len().is_multiple_of(8));
    let byte = |eight: &[char]| u8::from_str_radix(&String::from_iter(eight), 2).unwrap();
    bits.chunks(8).map(byte).collect()
}
