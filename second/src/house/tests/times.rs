//! Effective times: where there is one, and the sum that it is.

use super::*;
use crate::bits::write_field;

/// The same section with this pts_adjustment.
fn adjusted(section: &[u8], pts_adjustment: u64) -> Vec<u8> {
    let mut bytes = section[..section.len() - 4].to_vec();
    assert!(write_field(&mut bytes, 39, 33, pts_adjustment));
    finished(bytes)
}

fn time_signal(pts_time: u64) -> Vec<u8> {
    with(0x06, &splice_time(pts_time), &[])
}

/// splice_time() with a time: the flag and six reserved bits that are 1.
fn splice_time(pts_time: u64) -> String {
    format!("{:010x}", 0xFE_0000_0000 | pts_time)
}

fn program_insert(pts_time: u64) -> Vec<u8> {
    let command = format!("00000009 7F CF {} 0002 03 04", splice_time(pts_time));
    with(0x05, &command, &[])
}

fn is(section: &[u8], pts_adjustment: u64, ticks: u64) {
    let section = adjusted(section, pts_adjustment);
    assert_eq!(effective_time(&section), Ok(EffectiveTime::At { ticks }));
    assert_eq!(flat(effective_time(&section)), Ok(vec![1, ticks]));
}

fn is_none(section: &[u8]) {
    for pts_adjustment in [0, 1, (1 << 33) - 1] {
        let section = adjusted(section, pts_adjustment);
        assert_eq!(effective_time(&section), Ok(EffectiveTime::None));
        assert_eq!(flat(effective_time(&section)), Ok(vec![0]));
    }
}

#[test]
fn the_worked_sums_of_01() {
    for with_time in [time_signal, program_insert] {
        is(&with_time(8_589_934_591), 1, 0);
        is(&with_time(5_672_624_400), 180_832, 5_672_805_232);
    }
}

#[test]
fn the_sum_wraps_at_33_bits() {
    let most = (1 << 33) - 1;
    for with_time in [time_signal, program_insert] {
        is(&with_time(0), 0, 0);
        is(&with_time(1 << 32), 1 << 32, 0);
        is(&with_time(most), most, most - 1);
        is(&with_time(most), 0, most);
        is(&with_time(0), most, most);
        is(&with_time(1 << 32), 5, (1 << 32) + 5);
    }
}

#[test]
fn where_no_time_is_given() {
    is_none(&signal(&[]));
    // An insert of the program: no time, immediate, cancelled.
    is_none(&with(0x05, "00000009 7F CF 7F 0002 03 04", &[]));
    is_none(&with(0x05, "00000009 7F DF 0002 03 04", &[]));
    is_none(&with(0x05, "00000009 FF", &[]));
    // The time of a component is not that of the insert.
    let components = format!("00000009 7F 8F 01 0A {} 0002 03 04", splice_time(9));
    is_none(&with(0x05, &components, &[]));
}

#[test]
fn other_commands_have_none() {
    is_none(&with(0x00, "", &[]));
    is_none(&with(0x07, "", &[]));
    is_none(&with(0x04, "01 00000009 7F DF 00000001 0002 03 04", &[]));
    is_none(&with(0xFF, &format!("41424344 {}", splice_time(9)), &[]));
    is_none(&with(0x08, &splice_time(9), &[]));
}

#[test]
fn rows_1_to_10_and_sealed_refuse() {
    for (section, row) in refused_sections() {
        assert_eq!(effective_time(&section), Err(row));
    }
    assert_eq!(effective_time(&sealed(&time_signal(9))), Err(SEALED));
}
