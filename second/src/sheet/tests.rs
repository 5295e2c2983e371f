//! The sheet that 01 prints, sheets of a few other sections, and sheets that are none.

use super::*;
use crate::crc::crc32;
use crate::refusal::{CRC, SHORT, TABLE};
use crate::samples::TEXT_OF_004;
use crate::text::text_to_section;

const SHEET_OF_004: [u64; 43] = [
    252, 0, 0, 3, 0, 0, 0, 0, 0, 0, 5, 6, 1, 63, 3150057, 30, 2, 28, 1129661769, 1073741883, 0,
    127, 1, 1, 0, 0, 1, 1, 3, 18132042, 8, 8, 0, 0, 0, 0, 32, 251, 101, 1, 52, 0, 0,
];

/// The widths of the fields on that sheet.
const WIDTHS_OF_004: [u32; 43] = [
    8, 1, 1, 2, 8, 1, 6, 33, 8, 12, 12, 8, 1, 6, 33, 16, 8, 8, 32, 32, 1, 7, 1, 1, 1, 1, 1, 1, 2,
    40, 8, 8, 8, 8, 8, 8, 8, 8, 8, 8, 8, 8, 8,
];

/// A header's numbers: encrypted_packet and splice_command_length are given.
fn header(encrypted_packet: u64, splice_command_length: u64) -> Vec<u64> {
    let stated = splice_command_length;
    vec![252, 0, 0, 0, 0, encrypted_packet, 0, 0, 0, 0, stated]
}

fn sheet(encrypted_packet: u64, splice_command_length: u64, inside: &[u64]) -> Vec<u64> {
    [&header(encrypted_packet, splice_command_length), inside].concat()
}

/// The numbers are the sheet of a section of this many bytes.
fn is_sheet(sheet: &[u64], count: usize) {
    let section = section_of(sheet).expect("a sheet");
    assert_eq!(section.len(), count);
    assert_eq!(crc32(&section), 0);
    assert_eq!(sheet_of(&section).as_deref(), Ok(sheet));
}

fn is_none(sheet: &[u64]) {
    assert_eq!(section_of(sheet), Err(SHEET), "{sheet:?}");
}

fn section_of_004() -> Vec<u8> {
    text_to_section(TEXT_OF_004.as_bytes(), 55).unwrap()
}

#[test]
fn the_sheet_of_004() {
    assert_eq!(sheet_of(&section_of_004()), Ok(SHEET_OF_004.to_vec()));
    assert_eq!(section_of(&SHEET_OF_004), Ok(section_of_004()));
}

#[test]
fn a_section_that_is_refused_has_no_sheet() {
    assert_eq!(sheet_of(&[]), Err(SHORT));
    assert_eq!(sheet_of(&[0; 20]), Err(TABLE));
    let mut section = section_of_004();
    section[20] ^= 1;
    assert_eq!(sheet_of(&section), Err(CRC));
}

#[test]
fn a_number_too_wide_is_on_no_sheet() {
    for (place, width) in WIDTHS_OF_004.into_iter().enumerate() {
        for number in [1 << width, u64::MAX, SHEET_OF_004[place] + (1 << width)] {
            let mut sheet = SHEET_OF_004;
            sheet[place] = number;
            is_none(&sheet);
        }
    }
}

#[test]
fn a_number_missing_or_too_many() {
    for place in 0..43 {
        let mut sheet = SHEET_OF_004.to_vec();
        sheet.remove(place);
        is_none(&sheet);
        is_none(&SHEET_OF_004[..place]);
    }
    // At the end one more is stuffing, if it is a byte.
    let more = |number: u64| [SHEET_OF_004.as_slice(), &[number]].concat();
    is_sheet(&more(0), 56);
    is_sheet(&more(255), 56);
    is_none(&more(256));
    is_none(&[]);
}

#[test]
fn a_length_that_disagrees() {
    // splice_command_length, descriptor_loop_length, descriptor_length, segmentation_upid_length
    for place in [10, 15, 17, 31] {
        for length in 0..300 {
            let mut sheet = SHEET_OF_004;
            sheet[place] = length;
            if length == SHEET_OF_004[place] {
                is_sheet(&sheet, 55);
            } else {
                is_none(&sheet);
            }
        }
    }
    // Left open, the command's length is right too.
    let mut sheet = SHEET_OF_004;
    sheet[10] = 0xFFF;
    is_sheet(&sheet, 55);
}

#[test]
fn rows_2_3_and_6_hold_for_sheets() {
    for (place, number) in [(0, 251), (1, 1), (2, 1), (4, 1)] {
        let mut sheet = SHEET_OF_004;
        sheet[place] = number;
        is_none(&sheet);
    }
}

#[test]
fn sealed_sheets_are_bytes() {
    is_sheet(&sheet(1, 0xABC, &[255; 7]), 24);
    is_none(&sheet(1, 0xABC, &[255; 6]));
    is_none(&sheet(1, 0xABC, &[255, 255, 255, 255, 255, 255, 256]));
    is_none(&sheet(1, 0xABC, &[]));
}

#[test]
fn a_section_has_4096_bytes_at_most() {
    // Clear, the first two numbers are splice_command_type and, two bytes wide, the loop's length.
    for (encrypted, most) in [(0, 4078), (1, 4079)] {
        is_sheet(&sheet(encrypted, 0, &vec![0; most]), 4096);
        is_none(&sheet(encrypted, 0, &vec![0; most + 1]));
        is_none(&sheet(encrypted, 0, &[0; 70_000]));
    }
}

#[test]
fn sheets_of_each_command() {
    is_sheet(&sheet(0, 0, &[0x00, 0]), 20);
    is_sheet(&sheet(0, 0, &[0x07, 0]), 20);
    is_sheet(&sheet(0, 1, &[0x06, 0, 127, 0]), 21);
    is_sheet(&sheet(0, 1, &[0x04, 0, 0]), 21);
    is_sheet(&sheet(0, 6, &[0x04, 1, 9, 1, 127, 0]), 26);
    is_sheet(
        &sheet(0, 15, &[0x04, 1, 9, 0, 1, 1, 1, 0, 31, 7, 2, 3, 4, 0]),
        35,
    );
    is_sheet(
        &sheet(0, 17, &[0x04, 1, 9, 0, 1, 1, 0, 0, 31, 1, 5, 6, 2, 3, 4, 0]),
        37,
    );
    is_sheet(&sheet(0, 5, &[0x05, 9, 1, 127, 0]), 25);
    is_sheet(
        &sheet(0, 10, &[0x05, 9, 0, 0, 1, 1, 0, 1, 15, 2, 3, 4, 0]),
        30,
    );
    is_sheet(
        &sheet(
            0,
            15,
            &[0x05, 9, 0, 0, 1, 1, 1, 1, 15, 1, 63, 8, 2, 3, 4, 0],
        ),
        35,
    );
    is_sheet(
        &sheet(0, 13, &[0x05, 9, 0, 0, 1, 0, 0, 1, 15, 2, 7, 8, 2, 3, 4, 0]),
        33,
    );
    is_sheet(
        &sheet(
            0,
            13,
            &[0x05, 9, 0, 0, 1, 0, 0, 0, 15, 1, 7, 0, 127, 2, 3, 4, 0],
        ),
        33,
    );
    is_sheet(&sheet(0, 6, &[0xFF, 0x4142_4344, 1, 2, 0]), 26);
    is_none(&sheet(0, 3, &[0xFF, 0x4142_4344, 0]));
    is_none(&sheet(0, 0xFFF, &[0xFF, 0x4142_4344, 0]));
    is_sheet(&sheet(0, 3, &[0x55, 1, 2, 3, 0]), 23);
    is_none(&sheet(0, 0xFFF, &[0x55, 0]));
}

#[test]
fn sheets_of_each_descriptor() {
    let cuei = 0x4355_4549;
    is_sheet(&sheet(0, 0, &[0, 10, 0, 8, cuei, 9]), 30);
    is_sheet(&sheet(0, 0, &[0, 10, 1, 8, cuei, 9, 2, 31, 0x31, 0x32]), 30);
    is_sheet(&sheet(0, 0, &[0, 11, 2, 9, cuei, 9, 1, 127]), 31);
    is_sheet(&sheet(0, 0, &[0, 18, 3, 16, cuei, (1 << 48) - 1, 8, 7]), 38);
    is_sheet(
        &sheet(
            0,
            0,
            &[0, 12, 4, 10, cuei, 1, 15, 255, (1 << 24) - 1, 7, 15, 1],
        ),
        32,
    );
    is_sheet(&sheet(0, 0, &[0, 7, 5, 5, cuei, 255]), 27);
    is_sheet(&sheet(0, 0, &[0, 7, 0, 5, 0, 255]), 27);
    is_none(&sheet(0, 0, &[0, 7, 0, 5, cuei, 255]));
    is_none(&sheet(0, 0, &[0, 5, 5, 3, 0]));
    // A segment with and without sub-segments.
    let segment = |length, kind, behind: &[u64]| {
        let body = [2, length, cuei, 9, 0, 0, 1, 0, 1, 31, 0, 0, kind, 1, 1];
        sheet(0, 0, &[&[0, length + 2], body.as_slice(), behind].concat())
    };
    is_sheet(&segment(15, 0x34, &[]), 37);
    is_sheet(&segment(17, 0x34, &[1, 2]), 39);
    is_none(&segment(17, 0x35, &[1, 2]));
    is_none(&segment(16, 0x34, &[1]));
    is_none(&segment(18, 0x34, &[1, 2, 3]));
    is_none(&segment(17, 0x34, &[1]));
}
