//! 004's cue with the sheet that 01 prints for it, and the other samples of the papers.

use super::{back, there, there_and_back};
use crate::cases::published::{damaged, whole};
use crate::support::built::with_length_and_crc;
use crate::support::Bench;
use second::refusal::{CRC, ROOM, SIZE, TABLE};
use second::text::text_to_section;

/// 004's cue.
pub const SECTION_OF_004: [u8; 55] = [
    0xFC, 0x30, 0x34, 0x00, 0x00, 0x00, 0x00, 0x00, 0x00, 0x00, 0x00, 0x00, 0x05, 0x06, 0xFE, 0x00,
    0x30, 0x10, 0xE9, 0x00, 0x1E, 0x02, 0x1C, 0x43, 0x55, 0x45, 0x49, 0x40, 0x00, 0x00, 0x3B, 0x7F,
    0xCF, 0x00, 0x01, 0x14, 0xAC, 0x4A, 0x08, 0x08, 0x00, 0x00, 0x00, 0x00, 0x20, 0xFB, 0x65, 0x01,
    0x34, 0x00, 0x00, 0x36, 0xFA, 0xED, 0xA1,
];

/// Its sheet (01, Worked figures).
pub const SHEET_OF_004: [u64; 43] = [
    252, 0, 0, 3, 0, 0, 0, 0, 0, 0, 5, 6, 1, 63, 3150057, 30, 2, 28, 1129661769, 1073741883, 0,
    127, 1, 1, 0, 0, 1, 1, 3, 18132042, 8, 8, 0, 0, 0, 0, 32, 251, 101, 1, 52, 0, 0,
];

#[test]
fn the_cue_of_004() {
    let mut bench = Bench::new();
    assert_eq!(
        bench.section_to_sheet(&SECTION_OF_004),
        Ok(SHEET_OF_004.to_vec())
    );
    assert_eq!(
        bench.sheet_to_section(&SHEET_OF_004),
        Ok(SECTION_OF_004.to_vec())
    );
    // Exact, one less, more, none and some: of these five rooms three are too little.
    assert_eq!(bench.to_sheet.of(ROOM), 3);
    assert_eq!(bench.to_section.of(ROOM), 3);
    // One number more is stuffing; one less is none of its own.
    assert!(back(&mut bench, &[&SHEET_OF_004[..], &[0]].concat()));
    assert!(!back(&mut bench, &SHEET_OF_004[..42]));
}

#[test]
fn samples() {
    let mut bench = Bench::new();
    for text in whole() {
        let section = text_to_section(text.as_bytes(), 4096).unwrap();
        there_and_back(&mut bench, &section);
    }
    for text in damaged() {
        let section = text_to_section(text.as_bytes(), 4096).unwrap();
        let row = there(&mut bench, &section);
        assert!([TABLE, SIZE, CRC].contains(&row), "{text}: {row}");
        there(&mut bench, &with_length_and_crc(&section));
    }
}
