//! Cues made by chance, the same in every run: mostly what a channel sends, and some of all else.

use super::build::{self, known, put_crc, section};
use crate::cue::Cue;

/// Numbers by splitmix64.
pub struct Chance(u64);

impl Chance {
    pub fn new(seed: u64) -> Chance {
        Chance(seed)
    }

    pub fn next(&mut self) -> u64 {
        self.0 = self.0.wrapping_add(0x9E37_79B9_7F4A_7C15);
        let mut z = self.0;
        z = (z ^ z >> 30).wrapping_mul(0xBF58_476D_1CE4_E5B9);
        z = (z ^ z >> 27).wrapping_mul(0x94D0_49BB_1331_11EB);
        z ^ z >> 31
    }

    /// A number below the limit.
    pub fn below(&mut self, limit: usize) -> usize {
        (self.next() % limit as u64) as usize
    }

    fn of<T: Copy>(&mut self, all: &[T]) -> T {
        all[self.below(all.len())]
    }

    fn bytes(&mut self, count: usize) -> Vec<u8> {
        (0..count).map(|_| self.next() as u8).collect()
    }

    /// The order of the list, by chance.
    pub fn shuffle<T>(&mut self, list: &mut [T]) {
        for place in (1..list.len()).rev() {
            list.swap(place, self.below(place + 1));
        }
    }
}

/// A line of a day: of a hundred, 50 time signals, 30 inserts, 10 nulls, 4 of other commands, 2
/// sealed, 2 with a wrong CRC and 2 that are no text.
pub fn line(chance: &mut Chance) -> Vec<u8> {
    let made = match chance.below(100) {
        0..=49 => signal(chance),
        50..=79 => insert(chance),
        80..=89 => section(0x00, &[], &[], 0),
        90..=93 => other(chance),
        94..=95 => build::sealed(7 + chance.below(60)),
        96..=97 => wrong_crc(insert(chance)),
        _ => return no_text(chance),
    };
    at_another_time(Cue::of_section(made), chance)
}

/// The text of a cue with another pts_adjustment; one that is refused stays as it is.
pub fn at_another_time(cue: Cue, chance: &mut Chance) -> Vec<u8> {
    if cue.sheet.is_empty() {
        return cue.text;
    }
    let mut section = cue.section;
    section[5..9].copy_from_slice(&chance.next().to_be_bytes()[..4]);
    put_crc(&mut section);
    Cue::of_section(section).text
}

fn signal(chance: &mut Chance) -> Vec<u8> {
    let count = chance.of(&[1, 1, 1, 1, 1, 2, 2, 3, 3, 10]);
    let mut filled = Vec::new();
    for _ in 0..count {
        filled.extend(match chance.below(10) {
            0 => known(0, &chance.bytes(4)),
            1 => build::descriptor(chance.next() as u8, b"ABCD", &[0x5A; 9]),
            _ => segmentation(chance),
        });
    }
    section(0x06, &time(chance), &filled, 0)
}

fn segmentation(chance: &mut Chance) -> Vec<u8> {
    let types = [
        0x10, 0x11, 0x22, 0x23, 0x30, 0x31, 0x32, 0x33, 0x34, 0x35, 0x36, 0x37,
    ];
    let duration = chance.below(2) == 0;
    let mut body = chance.bytes(4);
    body.push(0x7F);
    body.push(if duration { 0xFF } else { 0xBF });
    if duration {
        body.push(0);
        body.extend(chance.bytes(4));
    }
    let upid = chance.of(&[0, 8, 8, 12, 32]);
    body.extend([if upid == 0 { 0 } else { 9 }, upid]);
    body.extend(chance.bytes(upid.into()));
    body.extend([chance.of(&types), 1, 1]);
    known(2, &body)
}

fn insert(chance: &mut Chance) -> Vec<u8> {
    let id = chance.bytes(4);
    let rest = match chance.below(10) {
        0 => vec![0xFF],
        1 => vec![0x7F, 0x5F, 0, 1, 1, 1],
        2 => [&[0x7F, 0xCF][..], &time(chance), &[0, 1, 1, 1]].concat(),
        _ => return timed_insert(chance),
    };
    section(0x05, &[id, rest].concat(), &[], 0)
}

/// An insert out of the network with a time and a duration.
pub fn timed_insert(chance: &mut Chance) -> Vec<u8> {
    let (id, time, duration) = (chance.bytes(4), time(chance), time(chance));
    let command = [&id[..], &[0x7F, 0xEF], &time, &duration, &[0, 1, 1, 1]].concat();
    section(0x05, &command, &[], 0)
}

/// A flag that is set, six reserved bits and 33 bits by chance.
fn time(chance: &mut Chance) -> [u8; 5] {
    let bits = 0xFE_0000_0000 | chance.next() >> 31;
    bits.to_be_bytes()[3..].try_into().expect("five bytes")
}

fn other(chance: &mut Chance) -> Vec<u8> {
    match chance.below(4) {
        0 => build::schedule(1 + chance.below(8) as u8),
        1 => build::private(chance.below(60)),
        2 => build::unknown(chance.below(60)),
        _ => section(0x07, &[], &[], chance.below(9)),
    }
}

fn wrong_crc(mut section: Vec<u8>) -> Vec<u8> {
    *section.last_mut().expect("a section has bytes") ^= 1;
    section
}

/// Nothing, a text that lost its last character, or one with a blank in it.
fn no_text(chance: &mut Chance) -> Vec<u8> {
    let mut text = Cue::of_section(insert(chance)).text;
    match chance.below(3) {
        0 => text.clear(),
        1 => drop(text.pop()),
        _ => text[20] = b' ',
    }
    text
}
