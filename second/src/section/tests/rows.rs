//! Rows 1 to 10 at their edges.

use super::*;
use crate::refusal::{COMMAND, CRC, CRYPT, DESCRIPTOR, LOOP, SHORT, SIZE, SYNTAX, TABLE, VERSION};

fn refused(section: &[u8]) -> u8 {
    accept(section).err().unwrap_or(0)
}

/// A splice_null() section of this many bytes, all that can be stuffing being so.
fn null_section(count: usize) -> Vec<u8> {
    section(0, &"00".repeat(count - 17))
}

#[test]
fn row_1_is_fewer_than_20_bytes() {
    assert_eq!(refused(&[]), SHORT);
    assert_eq!(refused(&null_section(20)[..19]), SHORT);
    assert_eq!(refused(&finished(vec![0xFC; 15])), SHORT);
    assert_eq!(refused(&null_section(20)), 0);
}

#[test]
fn row_2_is_another_table() {
    let mut section = null_section(20);
    section[0] = 0xFD;
    assert_eq!(refused(&section), TABLE);
    section[1] = 0xFF;
    assert_eq!(refused(&section), TABLE);
}

#[test]
fn row_3_is_either_indicator() {
    for bits in [0x80, 0x40, 0xC0] {
        let mut section = null_section(20);
        section[1] |= bits;
        section[2] = 0xFF;
        assert_eq!(refused(&section), SYNTAX);
    }
}

#[test]
fn row_4_is_the_length() {
    assert_eq!(refused(&null_section(4096)), 0);
    assert_eq!(refused(&null_section(4097)), SIZE);
    assert_eq!(refused(&null_section(4098)), SIZE);
    let section = null_section(40);
    assert_eq!(refused(&section[..39]), SIZE);
    assert_eq!(refused(&[section, vec![0]].concat()), SIZE);
}

#[test]
fn row_5_comes_before_row_6() {
    let mut section = null_section(20);
    section[3] = 1;
    assert_eq!(refused(&section), CRC);
    section.truncate(16);
    assert_eq!(refused(&finished(section)), VERSION);
}

#[test]
fn row_7_is_a_sealed_section_below_24_bytes() {
    for count in 20..30 {
        let mut section = null_section(count);
        section.truncate(count - 4);
        section[4] = 0x80;
        let expected = if count < 24 { CRYPT } else { 0 };
        assert_eq!(refused(&finished(section)), expected);
    }
}

#[test]
fn nothing_in_a_sealed_section_is_looked_at() {
    let mut bytes = vec![0xFC, 0x30, 0, 0, 0xFF, 0xFF, 0, 0, 0, 0, 0x12, 0x3A, 0xBC];
    bytes.extend(0xF0..=0xFF);
    let section = accept(&finished(bytes)).unwrap();
    assert_eq!(section.header.splice_command_length, 0xABC);
    assert_eq!(section.header.encryption_algorithm, 0x3F);
    assert_eq!(section.inside, Inside::Sealed((0xF0..=0xFF).collect()));
}

#[test]
fn row_8_ends_where_the_crc_starts() {
    // An unknown command with no byte, one byte and two bytes behind it, and then one byte less.
    assert_eq!(row(2, "AA 1111"), LOOP);
    assert_eq!(row(2, "AA 1111 00"), LOOP);
    assert_eq!(row(2, "AA 1111 0000"), 0);
    assert_eq!(row(3, "AA 1111"), COMMAND);
    assert_eq!(row(0xFFE, "AA 1111"), COMMAND);
    // The same with a time_signal().
    assert_eq!(row(5, "06 FE00000000"), LOOP);
    assert_eq!(row(5, "06 FE000000"), COMMAND);
    assert_eq!(row(4, "06 FE000000 0000"), COMMAND);
    assert_eq!(row(0xFFF, "06 FE00000000"), LOOP);
    assert_eq!(row(0xFFF, "06 FE000000"), COMMAND);
}

#[test]
fn row_9_is_a_loop_that_does_not_fit() {
    assert_eq!(row(0, "00 0000"), 0);
    assert_eq!(row(0, "00 0001"), LOOP);
    assert_eq!(row(0, "00 0006 010400000000"), 0);
    assert_eq!(row(0, "00 0007 010400000000"), LOOP);
    assert_eq!(row(0, "00 FFFF 010400000000"), LOOP);
    // The loop does not fit, so no descriptor is looked at.
    assert_eq!(row(0, "00 0007 010300000000"), LOOP);
}

#[test]
fn row_10_is_a_loop_that_is_not_filled() {
    assert_eq!(row(0, "00 0001 00"), DESCRIPTOR);
    assert_eq!(row(0, "00 0006 010500000000 00"), DESCRIPTOR);
    assert_eq!(row(0, "00 0007 010400000000 00"), DESCRIPTOR);
    assert_eq!(row(0, "00 0008 010400000000 0000"), DESCRIPTOR);
    assert_eq!(row(0, "00 000C 010400000000 010400000000"), 0);
    assert_eq!(row(0, "00 0005 0103000000"), DESCRIPTOR);
}

#[test]
fn stuffing_is_any_bytes() {
    let section = section(0, "00 0000 00FF43554549");
    let stuffing = from_hex("00FF43554549").unwrap();
    assert_eq!(clear(&section).alignment_stuffing, stuffing);
}
