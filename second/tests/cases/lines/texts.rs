//! Single texts: of random sections, of damaged ones, damaged themselves, of every length, and noise.

use crate::cases::damaged;
use crate::support::built::{any_section, cue, filled_section, longest_section, sealed, Size};
use crate::support::texts::{
    any_line, characters, damaged_text, text_of, text_of_damaged_section, REPLACEMENTS,
};
use crate::support::Bench;
use second::day;
use second::samples::PUBLISHED;

/// Room for every answer.
const PLENTY: usize = 40;

pub fn all(bench: &mut Bench) {
    sections(bench);
    damaged::every_kind(bench, of_section);
    a_character_changed_at_every_place(bench);
    damaged_ones(bench);
    short_ones(bench);
    every_length(bench);
}

/// The row that refuses the text's section, or 0.
fn of_section(bench: &mut Bench, section: &[u8]) -> u8 {
    let answer = bench.line(&text_of(section));
    let row = answer.strip_prefix("R ").map(|row| row.parse());
    row.map_or(0, |row| row.expect("the number of a row"))
}

fn sections(bench: &mut Bench) {
    for _ in 0..30_000 {
        let built = any_section(&mut bench.random, Size::Short);
        bench.line(&text_of(&built.bytes));
        let built = cue(&mut bench.random);
        bench.line(&text_of(&built.bytes));
    }
    for _ in 0..200 {
        let built = any_section(&mut bench.random, Size::Long);
        bench.line(&text_of(&built.bytes));
    }
    for _ in 0..20 {
        for make in [longest_section, filled_section] {
            let built = make(&mut bench.random);
            bench.line(&text_of(&built.bytes));
        }
    }
    for count in 7..=200 {
        let built = sealed(&mut bench.random, count);
        assert_eq!(bench.line(&text_of(&built.bytes)), "X");
    }
}

/// The published samples, the sample day and random cues, with each character replaced in many ways.
fn a_character_changed_at_every_place(bench: &mut Bench) {
    let mut texts: Vec<Vec<u8>> = Vec::new();
    texts.extend(PUBLISHED.iter().map(|sample| sample.printed.text.into()));
    texts.extend(day::lines().into_iter().map(|line| line.text.into_bytes()));
    texts.extend((0..100).map(|_| text_of(&cue(&mut bench.random).bytes)));
    for text in texts {
        for at in 0..text.len() {
            for replacement in REPLACEMENTS {
                let mut text = text.clone();
                text[at] = replacement;
                let _ = bench.line_in(&text, PLENTY);
            }
        }
    }
    let text = text_of(&longest_section(&mut bench.random).bytes);
    for at in 0..text.len() {
        let mut text = text.clone();
        text[at] = bench.random.one_of(&REPLACEMENTS);
        let _ = bench.line_in(&text, PLENTY);
    }
}

fn damaged_ones(bench: &mut Bench) {
    for _ in 0..100_000 {
        for make in [damaged_text, text_of_damaged_section, any_line] {
            let text = make(&mut bench.random);
            let room = bench.random.one_of(&[PLENTY, PLENTY, 23, 14, 5, 4, 2]);
            let _ = bench.line_in(&text, room);
        }
    }
}

/// Every text of up to four characters out of a few.
fn short_ones(bench: &mut Bench) {
    let few = b"A/+=Q \r\n\0\xff";
    let mut texts: Vec<Vec<u8>> = vec![vec![]];
    for _ in 0..4 {
        let longer = texts
            .iter()
            .flat_map(|text| few.map(|last| [&text[..], &[last]].concat()));
        texts = std::iter::once(vec![]).chain(longer).collect();
        for text in &texts {
            let _ = bench.line_in(text, PLENTY);
        }
    }
    for byte in 0..=255 {
        bench.line(&[byte]);
        bench.line(&[byte; 4]);
    }
}

/// Every length up to 120, every one around 5,464, and some far above.
fn every_length(bench: &mut Bench) {
    let far_above = [10_928, 65_535, 65_536, 65_537, 1_000_000, 10_000_000];
    for length in (0..=120).chain(5_440..=5_490).chain(far_above) {
        for filled in [b'A', b'/', b'=', b'\n', b'\r', 0] {
            bench.line(&vec![filled; length]);
        }
        let text = characters(&mut bench.random, length);
        let answer = bench.line(&text);
        let counted = length % 4 == 0 && length <= 5_464;
        assert_eq!(answer == "R 12", !counted, "{length}");
    }
}
