//! Every set of faults at once: the row that answers is the first of them.

use crate::support::built::{with_crc, with_length_and_crc};
use crate::support::Bench;
use second::refusal::{COMMAND, CRC, CRYPT, DESCRIPTOR, LOOP, SHORT, SIZE, SYNTAX, TABLE, VERSION};

/// A splice_null() section of 22 bytes, two of them stuffing.
fn plain(bench: &mut Bench) -> Vec<u8> {
    let mut section = bench.random.bytes(22);
    section[0] = 0xFC;
    section[1] &= 0x30;
    section[3] = 0;
    section[4] &= 0x7F;
    section[11] &= 0xF0;
    section[12..16].fill(0);
    with_length_and_crc(&section)
}

fn has(faults: u16, row: u8) -> bool {
    faults >> row & 1 == 1
}

/// The section with the faults whose bits are set, bit n for row n.
pub fn faulty(bench: &mut Bench, faults: u16) -> Vec<u8> {
    let mut section = plain(bench);
    if has(faults, TABLE) {
        section[0] ^= 1 << bench.random.within(0..=7);
    }
    if has(faults, SYNTAX) {
        section[1] |= bench.random.one_of(&[0x40, 0x80, 0xC0]);
    }
    if has(faults, VERSION) {
        section[3] = 1 << bench.random.within(0..=7);
    }
    if has(faults, CRYPT) {
        section[4] |= 0x80;
    }
    if has(faults, COMMAND) {
        section[12] = 1 << bench.random.within(0..=7);
    }
    // A descriptor of length 0, or a loop of one byte.
    if has(faults, DESCRIPTOR) {
        section[15] = bench.random.within(1..=2) as u8;
        section[17] = 0;
    }
    if has(faults, LOOP) {
        section[14] = bench.random.within(0..=255) as u8;
        section[15] = bench.random.within(3..=255) as u8;
    }
    if has(faults, SIZE) {
        section[2] = section[2].wrapping_add(bench.random.within(1..=255) as u8);
    }
    if has(faults, SHORT) {
        section.truncate(bench.random.within(17..=19));
        if !has(faults, SIZE) {
            section = with_length_and_crc(&section);
        }
    }
    section = with_crc(&section);
    if has(faults, CRC) {
        let last = section.len() - 1;
        section[last - bench.random.within(0..=3)] ^= 1 << bench.random.within(0..=7);
    }
    section
}

pub fn every_set(bench: &mut Bench) {
    for _ in 0..20 {
        for faults in 0..1 << 10 {
            let faults = faults << 1;
            let section = faulty(bench, faults);
            let first = (SHORT..=DESCRIPTOR).find(|row| has(faults, *row));
            assert_eq!(bench.accept(&section), first.unwrap_or(0), "{faults:#b}");
        }
    }
}
