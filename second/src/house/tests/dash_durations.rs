//! DASH durations: the longest of all in a time signal, whether it opens a break or not.

use super::*;

fn is(section: &[u8], ticks: u64) {
    assert_eq!(dash_duration(section), Ok(DashDuration::Lasts { ticks }));
    assert_eq!(flat(dash_duration(section)), Ok(vec![1, ticks]));
}

fn is_none(section: &[u8]) {
    assert_eq!(dash_duration(section), Ok(DashDuration::None));
    assert_eq!(flat(dash_duration(section)), Ok(vec![0]));
}

/// A segmentation descriptor of this type, with this duration or none.
fn one(type_id: u8, duration: Option<u64>) -> String {
    known(&segment(type_id, duration, ""))
}

#[test]
fn every_type_counts() {
    for type_id in 0..=255 {
        is(&signal(&[one(type_id, Some(77))]), 77);
        is(&signal(&[one(type_id, Some(0))]), 0);
        is_none(&signal(&[one(type_id, None)]));
    }
}

#[test]
fn the_longest_of_all() {
    is(&signal(&[one(0x34, Some(5)), one(0x10, Some(9))]), 9);
    is(&signal(&[one(0x10, Some(9)), one(0x34, Some(5))]), 9);
    is(&signal(&[one(0x34, Some(9)), one(0x10, Some(5))]), 9);
    is(&signal(&[one(0x11, Some(9)), one(0x34, Some(9))]), 9);
    is(&signal(&[one(0x34, None), one(0x10, Some(9))]), 9);
    is(&signal(&[one(0x34, Some(0)), one(0x10, None)]), 0);
    is_none(&signal(&[one(0x34, None), one(0x10, None)]));
    // Longest as numbers of 40 bits, not of 32.
    let (least, most) = (1 << 32, (1 << 40) - 1);
    is(
        &signal(&[one(0x10, Some(7)), one(0x34, Some(least))]),
        least,
    );
    is(&signal(&[one(0x10, Some(most)), one(0x34, Some(7))]), most);
}

#[test]
fn cancelled_and_unknown_descriptors_count_for_nothing() {
    let body = segment(0x34, Some(99), "");
    let foreign = || descriptor(2, "43554548", &body);
    let another_tag = || descriptor(5, CUEI, &body);
    is_none(&signal(&[]));
    is_none(&signal(&[known(CANCELLED)]));
    is_none(&signal(&[foreign()]));
    is_none(&signal(&[another_tag()]));
    is_none(&signal(&[descriptor(0, CUEI, "00000034")]));
    let short = || one(0x10, Some(5));
    is(&signal(&[foreign(), short(), another_tag()]), 5);
    is(&signal(&[known(CANCELLED), short(), known(CANCELLED)]), 5);
}

#[test]
fn whether_the_time_signal_has_a_time_does_not_matter() {
    let descriptors = [one(0x10, Some(9))];
    is(&with(0x06, "7F", &descriptors), 9);
    is(&with(0x06, "FE00000005", &descriptors), 9);
}

/// An insert has none: its own duration is the break's, and its descriptors are not asked.
#[test]
fn other_commands_have_none() {
    let descriptors = [one(0x34, Some(99))];
    let insert = "00000009 7F FF FE00000009 0002 03 04";
    is_none(&with(0x05, insert, &descriptors));
    is_none(&with(0x05, insert, &[]));
    is_none(&with(0x05, "00000009 FF", &descriptors));
    is_none(&with(0x00, "", &descriptors));
    is_none(&with(0x07, "", &descriptors));
    let schedule = "01 00000009 7F FF 00000001 FE00000009 0002 03 04";
    is_none(&with(0x04, schedule, &descriptors));
    is_none(&with(0xFF, "41424344 01", &descriptors));
    for kind in [0x01, 0x08, 0xFE] {
        is_none(&with(kind, "7F", &descriptors));
    }
}

#[test]
fn rows_1_to_10_and_sealed_refuse() {
    for (section, row) in refused_sections() {
        assert_eq!(dash_duration(&section), Err(row));
    }
    let timed = signal(&[one(0x34, Some(9))]);
    assert_eq!(dash_duration(&sealed(&timed)), Err(SEALED));
}
