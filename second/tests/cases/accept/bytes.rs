//! Built sections with a byte changed at every place, the CRC put right and left wrong.

use crate::support::built::{
    any_section, longest_section, middling_section, with_crc, Built, Size,
};
use crate::support::Bench;

/// Below this many bytes, every bit is turned over.
const FEW: usize = 64;

pub fn of_short_sections(bench: &mut Bench) {
    for _ in 0..700 {
        let built = any_section(&mut bench.random, Size::Short);
        for at in 0..built.bytes.len() {
            if built.bytes.len() < FEW {
                for bit in 0..8 {
                    try_byte(bench, &built, at, built.bytes[at] ^ 1 << bit);
                }
            }
            for value in values(bench, built.bytes[at]) {
                try_byte(bench, &built, at, value);
            }
        }
    }
}

pub fn of_long_sections(bench: &mut Bench) {
    for _ in 0..4 {
        let built = middling_section(&mut bench.random);
        for at in 0..built.bytes.len() {
            let value = bench.random.one_of(&[0, 1, 0x7F, 0x80, 0xFF]);
            try_byte(bench, &built, at, value);
        }
    }
    let built = longest_section(&mut bench.random);
    for at in 0..built.bytes.len() {
        let value = bench.random.number() as u8;
        try_byte(bench, &built, at, value);
    }
    for _ in 0..100 {
        let built = any_section(&mut bench.random, Size::Long);
        for _ in 0..20 {
            let at = bench.random.within(0..=built.bytes.len() - 1);
            let value = bench.random.number() as u8;
            try_byte(bench, &built, at, value);
        }
    }
}

/// A few values for a byte.
fn values(bench: &mut Bench, byte: u8) -> [u8; 5] {
    let random = bench.random.number() as u8;
    [0, 0xFF, byte.wrapping_add(1), byte.wrapping_sub(1), random]
}

fn try_byte(bench: &mut Bench, built: &Built, at: usize, value: u8) {
    let mut section = built.bytes.clone();
    section[at] = value;
    bench.accept(&section);
    bench.accept(&with_crc(&section));
}
