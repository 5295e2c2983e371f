//! Damaged sections of every kind, for whatever is asked of them.

use crate::cases::accept::faults::faulty;
use crate::support::built::{
    any_section, cut, grown, longest_section, sealed, with_crc, with_length_and_crc, Built, Size,
};
use crate::support::Bench;
use second::bits::{read_field, write_field};
use second::refusal::{CRYPT, DESCRIPTOR, SHORT};

/// What is asked of a section. It says which row refuses it, or 0.
pub type Put = fn(&mut Bench, &[u8]) -> u8;

/// Some 90,000 sections; each row is reached often.
pub fn every_kind(bench: &mut Bench, put: Put) {
    every_set_of_faults(bench, put);
    bytes(bench, put);
    cuts(bench, put);
    lengths(bench, put);
    sealed_ones(bench, put);
    long_ones(bench, put);
}

/// The row that answers is the first of the faults.
fn every_set_of_faults(bench: &mut Bench, put: Put) {
    for _ in 0..4 {
        for faults in 0..1 << 10 {
            let faults = faults << 1;
            let section = faulty(bench, faults);
            let first = (SHORT..=DESCRIPTOR).find(|row| faults >> row & 1 == 1);
            assert_eq!(put(bench, &section), first.unwrap_or(0), "{faults:#b}");
        }
    }
}

/// Each byte changed in turn, the CRC put right and left wrong.
fn bytes(bench: &mut Bench, put: Put) {
    for _ in 0..150 {
        let built = any_section(&mut bench.random, Size::Short);
        for at in 0..built.bytes.len() {
            let byte = built.bytes[at];
            let other = bench.random.number() as u8;
            for value in [0, 0xFF, byte.wrapping_add(1), byte.wrapping_sub(1), other] {
                try_byte(bench, put, &built, at, value);
            }
        }
    }
}

fn try_byte(bench: &mut Bench, put: Put, built: &Built, at: usize, value: u8) {
    let mut section = built.bytes.clone();
    section[at] = value;
    put(bench, &with_crc(&section));
    if bench.random.once_in(8) {
        put(bench, &section);
    }
}

/// Cut at each length and grown, section_length and the CRC put right, or one of them.
fn cuts(bench: &mut Bench, put: Put) {
    for _ in 0..150 {
        let built = any_section(&mut bench.random, Size::Short);
        for count in 0..=built.bytes.len() {
            put(bench, &built.bytes[..count]);
            if count >= 4 {
                put(bench, &cut(&built.bytes, count));
                put(bench, &with_crc(&built.bytes[..count]));
            }
        }
        for count in 1..=6 {
            let more = bench.random.bytes(count);
            put(bench, &grown(&built.bytes, &more));
        }
    }
}

/// Each length and count changed, the CRC put right.
fn lengths(bench: &mut Bench, put: Put) {
    for _ in 0..600 {
        let built = any_section(&mut bench.random, Size::Short);
        for mark in &built.marks {
            let all = (1 << mark.width) - 1;
            let now = read_field(&built.bytes, mark.at, mark.width);
            let other = bench.random.field(mark.width);
            for value in [0, all, (now + 1) & all, now.wrapping_sub(1) & all, other] {
                let mut section = built.bytes.clone();
                write_field(&mut section, mark.at, mark.width, value);
                put(bench, &with_crc(&section));
            }
        }
    }
}

/// Sealed sections around the fewest bytes that they may have.
fn sealed_ones(bench: &mut Bench, put: Put) {
    for _ in 0..100 {
        let section = sealed(&mut bench.random, 12).bytes;
        for count in 20..=section.len() {
            let row = put(bench, &cut(&section, count));
            assert_eq!(row, if count < 24 { CRYPT } else { 0 });
        }
    }
}

/// Long sections and the longest: a byte changed, a cut, one byte too many.
fn long_ones(bench: &mut Bench, put: Put) {
    for _ in 0..100 {
        let built = any_section(&mut bench.random, Size::Long);
        for _ in 0..4 {
            let at = bench.random.within(0..=built.bytes.len() - 1);
            let value = bench.random.number() as u8;
            try_byte(bench, put, &built, at, value);
            let count = bench.random.within(20..=built.bytes.len());
            put(bench, &cut(&built.bytes, count));
        }
    }
    for _ in 0..20 {
        let built = longest_section(&mut bench.random);
        for count in [1, 2, 3, 4096] {
            let more = bench.random.bytes(count);
            put(bench, &with_length_and_crc(&grown(&built.bytes, &more)));
        }
    }
}
