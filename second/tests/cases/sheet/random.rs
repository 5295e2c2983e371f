//! Numbers that never were a sheet, and the empty sheet.

use super::{back, often};
use crate::support::{Bench, Random};

/// A right header: anything may stand in the fields that no row looks at.
fn any_header(random: &mut Random, encrypted_packet: u64, splice_command_length: u64) -> Vec<u64> {
    vec![
        252,
        0,
        0,
        random.field(2),
        0,
        encrypted_packet,
        random.field(6),
        random.field(33),
        random.field(8),
        random.field(12),
        splice_command_length,
    ]
}

#[test]
fn the_empty_sheet() {
    let mut bench = Bench::new();
    assert!(!back(&mut bench, &[]));
}

/// A run covers 100,000 lists of up to 60 numbers, of any size, or small, or bytes.
#[test]
fn of_any_numbers() {
    let mut bench = Bench::new();
    for _ in 0..100_000 {
        let count = bench.random.within(0..=60);
        let kind = bench.random.within(0..=2);
        let numbers = (0..count).map(|_| match kind {
            0 => bench.random.number_of_any_size(),
            1 => bench.random.field(1),
            _ => bench.random.field(8),
        });
        let sheet: Vec<u64> = numbers.collect();
        back(&mut bench, &sheet);
    }
    often(&bench, "any numbers", 0, 99_000);
}

/// A run covers 100,000 lists of numbers, most of them small, behind a right header. A short
/// command of a known type with a length that fits, or one left open, comes up often enough for
/// many of them to be sheets.
#[test]
fn behind_a_right_header() {
    let mut bench = Bench::new();
    for _ in 0..100_000 {
        let random = &mut bench.random;
        let any_length = random.field(12);
        let stated = random.one_of(&[0xFFF, 0xFFF, 0, 1, 5, any_length]);
        let mut sheet = any_header(random, 0, stated);
        let any_type = random.field(8);
        sheet.push(random.one_of(&[0, 4, 5, 6, 7, 0xFF, any_type]));
        for _ in 0..random.within(1..=30) {
            sheet.push(match random.within(0..=9) {
                0 => random.number_of_any_size(),
                1 | 2 => random.field(8),
                _ => random.field(1),
            });
        }
        back(&mut bench, &sheet);
    }
    often(&bench, "behind a right header", 2_000, 30_000);
}

/// Behind the header of a sealed section any seven bytes and more are a sheet, whatever the
/// length of the command says.
#[test]
fn behind_a_sealed_header() {
    let mut bench = Bench::new();
    for _ in 0..10_000 {
        let random = &mut bench.random;
        let stated = random.field(12);
        let mut sheet = any_header(random, 1, stated);
        let count = random.within(0..=20);
        sheet.extend((0..count).map(|_| random.field(8)));
        assert_eq!(back(&mut bench, &sheet), count >= 7);
        if count > 0 {
            let place = 11 + bench.random.within(0..=count - 1);
            sheet[place] += 256;
            assert!(!back(&mut bench, &sheet));
        }
    }
    often(&bench, "behind a sealed header", 5_000, 10_000);
}

/// The header alone, in every state: each number changed to the ones around it.
#[test]
fn headers() {
    let mut bench = Bench::new();
    for _ in 0..200 {
        // A splice_null() without descriptors.
        let mut whole = any_header(&mut bench.random, 0, 0);
        whole.extend([0, 0]);
        assert!(back(&mut bench, &whole));
        for place in 0..whole.len() {
            for number in [
                0, 1, 2, 3, 4, 7, 63, 64, 251, 252, 253, 255, 256, 4095, 4096,
            ] {
                let mut other = whole.clone();
                other[place] = number;
                back(&mut bench, &other);
            }
        }
    }
    often(&bench, "headers", 5_000, 5_000);
}
