//! Sheets cut and lengthened, with numbers taken out, put in and changed for others of the sheet.

use super::{back, often};
use crate::support::built::{any_section, middling_section, Size};
use crate::support::Bench;
use second::sheet::sheet_of;

fn short_sheet(bench: &mut Bench) -> Vec<u64> {
    let built = any_section(&mut bench.random, Size::Short);
    sheet_of(&built.bytes).unwrap()
}

fn middling_sheet(bench: &mut Bench) -> Vec<u64> {
    let built = middling_section(&mut bench.random);
    sheet_of(&built.bytes).unwrap()
}

fn long_sheet(bench: &mut Bench) -> Vec<u64> {
    let built = any_section(&mut bench.random, Size::Long);
    sheet_of(&built.bytes).unwrap()
}

/// A run covers every length of 500 short sheets and of two middling ones, and 8 of each of 50
/// long ones. What is left is a sheet where only stuffing or sealed bytes were cut off.
#[test]
fn cut() {
    let mut bench = Bench::new();
    for _ in 0..500 {
        let sheet = short_sheet(&mut bench);
        for count in 0..sheet.len() {
            back(&mut bench, &sheet[..count]);
        }
    }
    for _ in 0..2 {
        let sheet = middling_sheet(&mut bench);
        for count in 0..sheet.len() {
            back(&mut bench, &sheet[..count]);
        }
    }
    for _ in 0..50 {
        let sheet = long_sheet(&mut bench);
        for _ in 0..8 {
            let count = bench.random.within(0..=sheet.len() - 1);
            back(&mut bench, &sheet[..count]);
        }
    }
    often(&bench, "cut", 500, 10_000);
}

/// More numbers at the end are stuffing, or sealed bytes, as long as they are bytes.
#[test]
fn lengthened() {
    let mut bench = Bench::new();
    for _ in 0..1_000 {
        let sheet = short_sheet(&mut bench);
        let random = &mut bench.random;
        for number in [
            0,
            1,
            255,
            256,
            random.field(8),
            random.number_of_any_size(),
            u64::MAX,
        ] {
            let longer = [&sheet[..], &[number]].concat();
            assert_eq!(back(&mut bench, &longer), number < 256);
        }
        let mut longer = sheet;
        let mut bytes = true;
        for _ in 0..bench.random.within(2..=20) {
            let number = match bench.random.within(0..=30) {
                0 => bench.random.one_of(&[256, 1 << 32, u64::MAX]),
                _ => bench.random.field(8),
            };
            bytes = bytes && number < 256;
            longer.push(number);
        }
        assert_eq!(back(&mut bench, &longer), bytes);
    }
    often(&bench, "lengthened", 2_000, 2_000);
}

/// Every two neighbours changed for one another, and some that are no neighbours.
#[test]
fn swapped() {
    let mut bench = Bench::new();
    for _ in 0..400 {
        let sheet = short_sheet(&mut bench);
        for place in 1..sheet.len() {
            let mut other = sheet.clone();
            other.swap(place - 1, place);
            back(&mut bench, &other);
            let mut other = sheet.clone();
            other.swap(place, bench.random.within(0..=sheet.len() - 1));
            back(&mut bench, &other);
        }
    }
    for _ in 0..50 {
        let sheet = long_sheet(&mut bench);
        for _ in 0..8 {
            let place = bench.random.within(1..=sheet.len() - 1);
            let mut other = sheet.clone();
            other.swap(place - 1, place);
            back(&mut bench, &other);
        }
    }
    often(&bench, "swapped", 5_000, 5_000);
}

/// A number taken out at each place, and two, and all up to the end but a few.
#[test]
fn taken_out() {
    let mut bench = Bench::new();
    for _ in 0..500 {
        let sheet = short_sheet(&mut bench);
        for place in 0..sheet.len() {
            let mut other = sheet.clone();
            other.remove(place);
            back(&mut bench, &other);
            let mut other = sheet.clone();
            let end = sheet.len().min(place + bench.random.within(2..=9));
            other.drain(place..end);
            back(&mut bench, &other);
        }
    }
    for _ in 0..50 {
        let sheet = long_sheet(&mut bench);
        for _ in 0..8 {
            let mut other = sheet.clone();
            other.remove(bench.random.within(0..=sheet.len() - 1));
            back(&mut bench, &other);
        }
    }
    often(&bench, "taken out", 500, 20_000);
}

/// A number put in at each place: 0, 1, 255, a random one, the one that stands there once more.
#[test]
fn put_in() {
    let mut bench = Bench::new();
    for _ in 0..250 {
        let sheet = short_sheet(&mut bench);
        for place in 0..sheet.len() {
            let random = &mut bench.random;
            for number in [0, 1, 255, random.number_of_any_size(), sheet[place]] {
                let mut other = sheet.clone();
                other.insert(place, number);
                back(&mut bench, &other);
            }
        }
    }
    for _ in 0..50 {
        let sheet = long_sheet(&mut bench);
        for _ in 0..8 {
            let mut other = sheet.clone();
            let number = bench.random.field(8);
            other.insert(bench.random.within(0..=sheet.len() - 1), number);
            back(&mut bench, &other);
        }
    }
    often(&bench, "put in", 2_000, 20_000);
}
