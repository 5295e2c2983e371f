//! Breaks: what opens one, and what measures it.

use super::*;

/// splice_insert(): these flags (hex), then what they ask for.
fn insert(flags: &str, behind: &str) -> String {
    format!("00000009 7F {flags} {behind} 0002 03 04")
}

fn is(section: &[u8], expected: Break) {
    assert_eq!(break_answer(section), Ok(expected));
}

fn measured(ticks: u64) -> Break {
    Break::Measured { ticks }
}

#[test]
fn the_five_types_open_a_break() {
    for type_id in 0..=255 {
        let opens = [0x22, 0x30, 0x32, 0x34, 0x36].contains(&type_id);
        let without = if opens {
            Break::WithoutMeasure
        } else {
            Break::None
        };
        let with = if opens { measured(77) } else { Break::None };
        is(&signal(&[known(&segment(type_id, None, ""))]), without);
        is(&signal(&[known(&segment(type_id, Some(77), ""))]), with);
    }
}

#[test]
fn a_duration_of_0_is_a_measure() {
    is(&signal(&[known(&segment(0x34, Some(0), ""))]), measured(0));
    let command = insert("EF", "7F FE00000000");
    is(&with(0x05, &command, &[]), measured(0));
}

#[test]
fn all_forty_bits_measure() {
    let most = (1 << 40) - 1;
    for ticks in [1 << 32, 1 << 33, (1 << 33) + 1, 1 << 39, most] {
        is(
            &signal(&[known(&segment(0x30, Some(ticks), ""))]),
            measured(ticks),
        );
    }
    let command = insert("EF", "7F FFFFFFFFFF");
    is(&with(0x05, &command, &[]), measured((1 << 33) - 1));
}

/// The longest of those that open the break, in whatever order they stand.
#[test]
fn the_longest_opening_one_measures() {
    let opening = |type_id, duration| known(&segment(type_id, duration, ""));
    let (short, long) = (|| opening(0x34, Some(5)), || opening(0x22, Some(9)));
    is(&signal(&[short(), long()]), measured(9));
    is(&signal(&[long(), short()]), measured(9));
    is(&signal(&[long(), long(), short()]), measured(9));
    let without = || opening(0x36, None);
    is(&signal(&[without(), short(), without()]), measured(5));
    let zero = || opening(0x30, Some(0));
    is(&signal(&[without(), zero()]), measured(0));
    is(&signal(&[without(), without()]), Break::WithoutMeasure);
    // Longest as numbers of 40 bits, not of 32.
    let most = || opening(0x32, Some((1 << 32) - 1));
    let more = || opening(0x34, Some(1 << 32));
    is(&signal(&[most(), more(), short()]), measured(1 << 32));
}

/// The customer's cue: a program of two hours starts beside a placement opportunity of a minute.
#[test]
fn the_length_of_a_program_is_not_billed() {
    let program = || known(&segment(0x10, Some(2 * 3_600 * 90_000), ""));
    let opportunity = |duration| known(&segment(0x34, duration, ""));
    let minute = || opportunity(Some(60 * 90_000));
    is(&signal(&[program(), minute()]), measured(5_400_000));
    is(&signal(&[minute(), program()]), measured(5_400_000));
    let zero = opportunity(Some(0));
    is(&signal(&[program(), zero]), measured(0));
    let without = || opportunity(None);
    is(&signal(&[program(), without()]), Break::WithoutMeasure);
    is(&signal(&[without(), program()]), Break::WithoutMeasure);
    is(&signal(&[program()]), Break::None);
}

/// Of all 251 types that open no break, none measures one.
#[test]
fn no_other_type_measures() {
    let opening = |duration| known(&segment(0x36, duration, ""));
    for type_id in 0..=255 {
        if [0x22, 0x30, 0x32, 0x34, 0x36].contains(&type_id) {
            continue;
        }
        let other = || known(&segment(type_id, Some(99), ""));
        is(&signal(&[other(), opening(Some(7)), other()]), measured(7));
        is(&signal(&[other(), opening(Some(0))]), measured(0));
        is(&signal(&[other(), opening(None)]), Break::WithoutMeasure);
        is(&signal(&[other(), other()]), Break::None);
    }
}

#[test]
fn cancelled_and_unknown_descriptors_count_for_nothing() {
    let foreign = |duration| descriptor(2, "43554548", &segment(0x34, duration, ""));
    let another_tag = |duration| descriptor(5, CUEI, &segment(0x34, duration, ""));
    let cancelled = || known(CANCELLED);
    is(&signal(&[]), Break::None);
    is(&signal(&[cancelled()]), Break::None);
    is(&signal(&[foreign(Some(9))]), Break::None);
    is(&signal(&[another_tag(Some(9))]), Break::None);
    let opening = || known(&segment(0x36, None, ""));
    is(
        &signal(&[
            foreign(Some(9)),
            cancelled(),
            opening(),
            another_tag(Some(9)),
        ]),
        Break::WithoutMeasure,
    );
    // Descriptors of other kinds open nothing.
    let avail = descriptor(0, CUEI, "00000034");
    is(&signal(&[avail]), Break::None);
}

#[test]
fn inserts_out_of_the_network() {
    // Flags: out, program, duration, immediate.
    is(&with(0x05, &insert("DF", ""), &[]), Break::WithoutMeasure);
    is(&with(0x05, &insert("5F", ""), &[]), Break::None);
    is(&with(0x05, &insert("CF", "7F"), &[]), Break::WithoutMeasure);
    let duration = "FE00000009";
    is(&with(0x05, &insert("FF", duration), &[]), measured(9));
    is(&with(0x05, &insert("7F", duration), &[]), Break::None);
    let timed = format!("FE00000005 {duration}");
    is(&with(0x05, &insert("EF", &timed), &[]), measured(9));
    // Of components.
    let components = format!("02 0A 0B {duration}");
    is(&with(0x05, &insert("BF", &components), &[]), measured(9));
    is(&with(0x05, &insert("9F", "00"), &[]), Break::WithoutMeasure);
    is(&with(0x05, &insert("1F", "00"), &[]), Break::None);
    // Cancelled.
    is(&with(0x05, "00000009 FF", &[]), Break::None);
}

#[test]
fn no_descriptor_measures_an_insert() {
    let descriptors = [known(&segment(0x34, Some(99), ""))];
    is(
        &with(0x05, &insert("DF", ""), &descriptors),
        Break::WithoutMeasure,
    );
    is(&with(0x05, &insert("5F", ""), &descriptors), Break::None);
    is(
        &with(0x05, &insert("FF", "FE00000009"), &descriptors),
        measured(9),
    );
    is(&with(0x05, "00000009 FF", &descriptors), Break::None);
}

#[test]
fn other_commands_open_none() {
    let descriptors = [known(&segment(0x34, Some(99), ""))];
    is(&with(0x00, "", &descriptors), Break::None);
    is(&with(0x07, "", &descriptors), Break::None);
    // A schedule of one event that goes out of the network.
    let schedule = "01 00000009 7F FF 00000001 FE00000009 0002 03 04";
    is(&with(0x04, schedule, &descriptors), Break::None);
    is(&with(0xFF, "41424344 01", &descriptors), Break::None);
}

#[test]
fn what_is_unread() {
    let descriptors = [known(&segment(0x34, Some(99), ""))];
    for kind in [0x01, 0x02, 0x03, 0x08, 0xFE] {
        is(&with(kind, "", &descriptors), Break::Unread);
        is(&with(kind, "7F", &[]), Break::Unread);
    }
    is(&sealed(&signal(&descriptors)), Break::Unread);
    is(&sealed(&with(0x00, "", &[])), Break::Unread);
}

#[test]
fn rows_1_to_10_refuse() {
    for (section, row) in refused_sections() {
        assert_eq!(break_answer(&section), Err(row));
    }
}

#[test]
fn the_flat_lists() {
    let list = |section: &[u8]| flat(break_answer(section)).unwrap();
    assert_eq!(list(&signal(&[])), [0]);
    assert_eq!(list(&signal(&[known(&segment(0x22, Some(8), ""))])), [1, 8]);
    assert_eq!(list(&signal(&[known(&segment(0x22, Some(0), ""))])), [1, 0]);
    assert_eq!(list(&signal(&[known(&segment(0x22, None, ""))])), [2]);
    assert_eq!(list(&with(0x01, "", &[])), [3]);
}
