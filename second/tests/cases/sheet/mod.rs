//! Field sheets, there and back: sections asked for their sheets, sheets asked for their sections,
//! good ones and damaged ones. Each question is put in rooms of every kind (`support/sheets.rs`).
//! A run puts some three million of them to the proved library; each test says what it covers.

mod lists;
mod longest;
mod numbers;
mod places;
mod published;
mod random;
mod refused;
mod sections;
mod too_long;

use crate::support::{Bench, Random};
use second::refusal::SHEET;

/// The bytes of a section that are no command, descriptors or stuffing.
const FRAME: usize = 13 + 1 + 2 + 4;

/// The sheet of a section that is accepted, and from the sheet that section again.
fn there_and_back(bench: &mut Bench, section: &[u8]) -> Vec<u64> {
    let sheet = bench.section_to_sheet(section).expect("accepted");
    comes_back(bench, section, &sheet);
    sheet
}

/// A section that may be accepted; if it is, there and back. The row that refuses it, or 0.
fn there(bench: &mut Bench, section: &[u8]) -> u8 {
    match bench.section_to_sheet(section) {
        Ok(sheet) => {
            comes_back(bench, section, &sheet);
            0
        }
        Err(row) => row,
    }
}

fn comes_back(bench: &mut Bench, section: &[u8], sheet: &[u64]) {
    let back = bench.sheet_to_section(sheet);
    assert!(back.as_deref() == Ok(section), "{sheet:?}");
}

/// Numbers that may be a sheet; if they are, the section that they make has them for its sheet.
/// Says whether they are.
fn back(bench: &mut Bench, sheet: &[u64]) -> bool {
    match bench.sheet_to_section(sheet) {
        Ok(section) => {
            let there = bench.section_to_sheet(&section);
            assert!(there.as_deref() == Ok(sheet), "{sheet:?}");
            true
        }
        Err(row) => {
            assert_eq!(row, SHEET);
            false
        }
    }
}

/// Prints how many sheets of a kind were accepted and refused, and ends the test where either
/// were fewer than that.
fn often(bench: &Bench, kind: &str, accepted: u64, refused: u64) {
    let counts = (bench.to_section.of(0), bench.to_section.of(SHEET));
    println!("{kind}: {} accepted, {} refused", counts.0, counts.1);
    assert!(counts.0 >= accepted, "{kind}: too few were accepted");
    assert!(counts.1 >= refused, "{kind}: too few were refused");
}

/// A header, sap_type 3 and all else 0.
fn header(encrypted_packet: u64, splice_command_length: u64) -> Vec<u64> {
    let stated = splice_command_length;
    vec![252, 0, 0, 3, 0, encrypted_packet, 0, 0, 0, 0, stated]
}

/// The numbers of a byte string.
fn bytes(random: &mut Random, count: usize) -> Vec<u64> {
    random.bytes(count).into_iter().map(u64::from).collect()
}
