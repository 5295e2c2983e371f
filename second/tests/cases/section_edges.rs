//! Sections at the edges of the rules, and random ones: lengths, rooms and the way back.

use crate::support::Bench;
use second::refusal::{ROOM, SIZE};

#[test]
fn every_short_section_in_every_room() {
    let mut bench = Bench::new();
    for length in 0usize..=70 {
        let needed = 4 * length.div_ceil(3);
        let kinds = [
            bench.random.bytes(length),
            vec![0x00; length],
            vec![0xFF; length],
        ];
        for section in kinds {
            for room in 0..=needed + 2 {
                let answer = bench.section_to_text(&section, room);
                assert_eq!(answer == Err(ROOM), room < needed);
            }
        }
    }
}

#[test]
fn every_section_of_one_and_two_bytes() {
    let mut bench = Bench::new();
    for a in 0..=255 {
        let text = bench.section_to_text(&[a], 4).unwrap();
        assert_eq!(bench.text_to_section(&text, 1), Ok(vec![a]));
        for b in 0..=255 {
            let text = bench.section_to_text(&[a, b], 5).unwrap();
            assert_eq!(bench.text_to_section(&text, 2), Ok(vec![a, b]));
        }
    }
}

#[test]
fn the_longest_sections() {
    let mut bench = Bench::new();
    for length in [4094usize, 4095, 4096, 4097, 4098, 5000, 8192] {
        let section = bench.random.bytes(length);
        let needed = 4 * length.div_ceil(3);
        for room in [0, 1, needed - 1, needed, needed + 1, needed + 40] {
            let answer = bench.section_to_text(&section, room);
            let expected = match (length > 4096, room < needed) {
                (true, _) => Some(SIZE),
                (false, true) => Some(ROOM),
                (false, false) => None,
            };
            assert_eq!(answer.err(), expected);
        }
    }
}

#[test]
fn long_sections_come_back() {
    let mut bench = Bench::new();
    for length in [1000, 4092, 4093, 4094, 4095, 4096] {
        let section = bench.random.bytes(length);
        let text = bench.section_to_text(&section, 5464).unwrap();
        assert_eq!(bench.text_to_section(&text, length), Ok(section));
        assert_eq!(bench.text_to_section(&text, length - 1), Err(ROOM));
    }
}

#[test]
fn random_sections_come_back() {
    let mut bench = Bench::new();
    for _ in 0..150_000 {
        let length = bench.random.within(0..=150);
        let section = bench.random.bytes(length);
        let needed = 4 * length.div_ceil(3);
        let extra = bench.random.within(0..=10);
        let text = bench.section_to_text(&section, needed + extra).unwrap();
        let extra = bench.random.within(0..=10);
        assert_eq!(bench.text_to_section(&text, length + extra), Ok(section));
    }
}

/// The section as text and back, in the room that each needs.
fn comes_back(bench: &mut Bench, section: &[u8]) {
    let text = bench.section_to_text(section, 4 * section.len().div_ceil(3));
    let back = bench.text_to_section(&text.unwrap(), section.len());
    assert_eq!(back.as_deref(), Ok(section));
}

/// The same with each bit of one byte changed.
fn come_back_changed(bench: &mut Bench, section: &[u8], place: usize) {
    let mut changed = section.to_vec();
    for bit in 0..8 {
        changed[place] = section[place] ^ 1 << bit;
        comes_back(bench, &changed);
    }
}

#[test]
fn sections_come_back_with_every_bit_changed() {
    let mut bench = Bench::new();
    for length in 0..=200 {
        let section = bench.random.bytes(length);
        comes_back(&mut bench, &section);
        for place in 0..length {
            come_back_changed(&mut bench, &section, place);
        }
    }
}

#[test]
fn every_length_around_the_longest_section() {
    let mut bench = Bench::new();
    for length in 4090usize..=4100 {
        let section = bench.random.bytes(length);
        if length > 4096 {
            let answer = bench.section_to_text(&section, 4 * length.div_ceil(3));
            assert_eq!(answer, Err(SIZE));
            continue;
        }
        for place in (0..length).step_by(512).chain(length - 3..length) {
            come_back_changed(&mut bench, &section, place);
        }
    }
}
