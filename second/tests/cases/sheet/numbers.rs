//! Sheets with one number changed, and with several: too wide for the field, or another that fits.

use super::published::{SECTION_OF_004, SHEET_OF_004};
use super::{back, often, there_and_back};
use crate::support::built::{any_section, middling_section, Size};
use crate::support::{fields, widths, Bench, Random};

/// What a number is changed to: one up and one down, 0, all ones, one past the width, far past it;
/// the same number with a bit set that the field does not have, for a writer that drops high bits;
/// and random ones.
fn changes(random: &mut Random, number: u64, width: usize) -> Vec<u64> {
    let past = 1 << width;
    let mut changes = vec![
        number.wrapping_add(1),
        number.wrapping_sub(1),
        0,
        past - 1,
        past,
        1 << 32,
        1 << 63,
        u64::MAX,
        number + past,
        number + (1 << 48),
        number + (1 << 63),
        random.field(width),
        random.number_of_any_size(),
        random.number(),
    ];
    if width <= 8 {
        changes.push(number + (1 << 8));
    }
    if width <= 32 {
        changes.push(number + (1 << 32));
    }
    changes.retain(|change| *change != number);
    changes
}

/// The sheet with each change at this place; a number too wide is on no sheet.
fn try_place(bench: &mut Bench, sheet: &[u64], place: usize, width: usize) {
    let mut other = sheet.to_vec();
    for change in changes(&mut bench.random, sheet[place], width) {
        other[place] = change;
        let accepted = back(bench, &other);
        assert!(!accepted || change < 1 << width);
    }
}

/// Every number of 004's sheet, each with every number that fits into eight bits.
#[test]
fn of_004() {
    let mut bench = Bench::new();
    let widths = widths(&SECTION_OF_004);
    for (place, width) in widths.into_iter().enumerate() {
        try_place(&mut bench, &SHEET_OF_004, place, width);
        let mut other = SHEET_OF_004;
        for number in 0..=256 {
            other[place] = number;
            back(&mut bench, &other);
        }
    }
    often(&bench, "004, a number changed", 1_000, 1_000);
}

/// A run covers every number of 300 short sheets, some 16 changes to each.
#[test]
fn of_short_sheets() {
    let mut bench = Bench::new();
    for _ in 0..300 {
        let built = any_section(&mut bench.random, Size::Short);
        let sheet = there_and_back(&mut bench, &built.bytes);
        for (place, width) in widths(&built.bytes).into_iter().enumerate() {
            try_place(&mut bench, &sheet, place, width);
        }
    }
    often(&bench, "short sheets, a number changed", 10_000, 50_000);
}

/// What the numbers behind it depend on: lengths and counts, types and tags, flags.
fn decides(name: &str) -> bool {
    let ends = [
        "_length",
        "_count",
        "_type",
        "_tag",
        "_type_id",
        "_flag",
        "_indicator",
        "_packet",
    ];
    ends.iter().any(|end| name.ends_with(end))
}

/// A run covers every length, count, type, tag and flag of 40 short sheets, each with every number
/// from 0 to 260, and with the lengths that state nothing or all that their bits can hold.
#[test]
fn that_others_depend_on() {
    let mut bench = Bench::new();
    for _ in 0..40 {
        let built = any_section(&mut bench.random, Size::Short);
        let sheet = there_and_back(&mut bench, &built.bytes);
        for (place, (name, width)) in fields(&built.bytes).into_iter().enumerate() {
            if !decides(name) {
                continue;
            }
            let most = if width == 1 { 2 } else { 260 };
            let mut other = sheet.clone();
            for number in (0..=most).chain([0xFFE, 0xFFF, 0x1000, 0xFFFF, 0x1_0000]) {
                other[place] = number;
                back(&mut bench, &other);
            }
        }
    }
    often(
        &bench,
        "short sheets, a deciding number changed",
        2_000,
        30_000,
    );
}

/// A run covers 8 places of each of 40 long sheets and all places of two middling ones.
#[test]
fn of_long_sheets() {
    let mut bench = Bench::new();
    for _ in 0..40 {
        let built = any_section(&mut bench.random, Size::Long);
        let sheet = there_and_back(&mut bench, &built.bytes);
        let widths = widths(&built.bytes);
        for _ in 0..8 {
            let place = bench.random.within(0..=sheet.len() - 1);
            try_place(&mut bench, &sheet, place, widths[place]);
        }
    }
    for _ in 0..2 {
        let built = middling_section(&mut bench.random);
        let sheet = there_and_back(&mut bench, &built.bytes);
        for (place, width) in widths(&built.bytes).into_iter().enumerate() {
            let mut other = sheet.clone();
            let changes = changes(&mut bench.random, sheet[place], width);
            other[place] = bench.random.one_of(&changes);
            back(&mut bench, &other);
        }
    }
    often(&bench, "long sheets, a number changed", 500, 2_000);
}

/// A run covers 20,000 short sheets with two or three numbers changed to others that fit.
#[test]
fn several_at_once() {
    let mut bench = Bench::new();
    for _ in 0..20_000 {
        let built = any_section(&mut bench.random, Size::Short);
        let mut sheet = second::sheet::sheet_of(&built.bytes).unwrap();
        let widths = widths(&built.bytes);
        for _ in 0..bench.random.within(2..=3) {
            let place = bench.random.within(0..=sheet.len() - 1);
            sheet[place] = bench.random.field(widths[place]);
        }
        back(&mut bench, &sheet);
    }
    often(&bench, "short sheets, several changed", 2_000, 5_000);
}
