//! Texts for lines: those of random sections, good and damaged, and whole inputs of them.

use super::built::{any_section, cue, longest_section, middling_section, with_crc, Size};
use super::damage::damage;
use super::random::Random;
use second::text::{section_to_text, ALPHABET};

/// Characters that may stand in a line and do harm there: a carriage return, a blank, a tab, padding,
/// a newline, the least and the greatest byte, those of the other alphabet, and some that are good
/// elsewhere.
pub const REPLACEMENTS: [u8; 16] = [
    b'\r', b' ', b'\t', b'=', b'\n', 0, 255, b'-', b'_', b'.', 0x7F, 0x80, b'A', b'/', b'+', b'z',
];

/// The base64 text of these bytes, however many they are.
pub fn text_of(bytes: &[u8]) -> Vec<u8> {
    // A multiple of three, so that padding can only stand at the end.
    let parts = bytes.chunks(3_000);
    let texts = parts.map(|part| section_to_text(part, usize::MAX).expect("short enough"));
    texts.collect::<Vec<Vec<u8>>>().concat()
}

/// The text of a section that is accepted, mostly a short one and mostly a cue.
pub fn good_text(random: &mut Random) -> Vec<u8> {
    let built = match random.within(0..=399) {
        0 => longest_section(random),
        1 => any_section(random, Size::Long),
        2 => middling_section(random),
        3..=199 => any_section(random, Size::Short),
        _ => cue(random),
    };
    text_of(&built.bytes)
}

/// The text of a section with a byte changed, its CRC right again.
pub fn text_of_damaged_section(random: &mut Random) -> Vec<u8> {
    let mut section = cue_or_other(random);
    let at = random.within(0..=section.len() - 1);
    section[at] = match random.within(0..=3) {
        0 => random.number() as u8,
        1 => section[at].wrapping_add(1),
        2 => section[at].wrapping_sub(1),
        _ => section[at] ^ 0x80 >> random.within(0..=7),
    };
    if random.once_in(8) {
        return text_of(&section);
    }
    text_of(&with_crc(&section))
}

fn cue_or_other(random: &mut Random) -> Vec<u8> {
    match random.once_in(2) {
        true => cue(random).bytes,
        false => any_section(random, Size::Short).bytes,
    }
}

/// A good text with harm done to it in one to three places.
pub fn damaged_text(random: &mut Random) -> Vec<u8> {
    let mut text = good_text(random);
    for _ in 0..random.within(1..=3) {
        damage(random, &mut text);
    }
    text
}

/// Any line: good, damaged in one way or the other, empty, noise, or at the edge of what is too long.
pub fn any_line(random: &mut Random) -> Vec<u8> {
    match random.within(0..=19) {
        0..=7 => good_text(random),
        8..=11 => text_of_damaged_section(random),
        12..=15 => damaged_text(random),
        16 => vec![],
        17 => {
            let count = random.within(0..=40);
            random.bytes(count)
        }
        18 if random.once_in(8) => long_line(random),
        _ => {
            let count = random.within(0..=12);
            characters(random, count)
        }
    }
}

/// A line around the longest that is read, or far above it.
pub fn long_line(random: &mut Random) -> Vec<u8> {
    let count = match random.within(0..=3) {
        0 => random.within(5_400..=5_600),
        1 => random.within(5_461..=5_468),
        2 => 5_464,
        _ => random.within(5_465..=30_000),
    };
    characters(random, count)
}

/// So many characters of the alphabet.
pub fn characters(random: &mut Random, count: usize) -> Vec<u8> {
    (0..count).map(|_| random.one_of(ALPHABET)).collect()
}

/// An input of so many lines, the last with a newline or without.
pub fn input_of(random: &mut Random, count: usize) -> Vec<u8> {
    let lines: Vec<Vec<u8>> = (0..count).map(|_| any_line(random)).collect();
    let mut input = lines.join(&b'\n');
    if random.once_in(2) {
        input.push(b'\n');
    }
    input
}

/// The input in parts: a cut stands before byte n + 1 where bit n of this number is 1.
pub fn cut_by_bits(input: &[u8], cuts: u64) -> Vec<&[u8]> {
    let mut parts = Vec::new();
    let mut start = 0;
    for at in 1..input.len() {
        if cuts >> (at - 1) & 1 == 1 {
            parts.push(&input[start..at]);
            start = at;
        }
    }
    parts.push(&input[start..]);
    parts
}

/// The input in parts of any lengths up to this one, some of them empty.
pub fn cut_at_random<'a>(random: &mut Random, input: &'a [u8], longest: usize) -> Vec<&'a [u8]> {
    let mut parts = Vec::new();
    let mut rest = input;
    while !rest.is_empty() {
        let length = match random.within(0..=9) {
            0 => 0,
            1..=3 => random.within(1..=9),
            _ => random.within(1..=longest),
        };
        let (part, behind) = rest.split_at(length.min(rest.len()));
        parts.push(part);
        rest = behind;
    }
    parts
}

/// Room for the answers of a turn: none, too little for some of them, for one, for some or for many.
pub fn any_room(random: &mut Random) -> usize {
    match random.within(0..=5) {
        0 => random.within(0..=5),
        1 => random.within(2..=23),
        2 | 3 => random.within(5..=120),
        4 => random.within(100..=2_000),
        _ => 65_536,
    }
}
