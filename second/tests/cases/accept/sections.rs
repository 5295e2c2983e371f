//! Built sections, which both programs accept, and insides of random bytes, which mostly are not.

use crate::support::built::{
    any_section, filled_section, grown, sealed, with_length_and_crc, Built, Size, LONGEST,
};
use crate::support::Bench;
use second::refusal::SIZE;

fn accepted(bench: &mut Bench, built: &Built) {
    assert_eq!(bench.accept(&built.bytes), 0, "a built section is refused");
}

pub fn short(bench: &mut Bench) {
    for _ in 0..60_000 {
        let built = any_section(&mut bench.random, Size::Short);
        accepted(bench, &built);
    }
}

pub fn long(bench: &mut Bench) {
    for _ in 0..1_500 {
        let built = any_section(&mut bench.random, Size::Long);
        accepted(bench, &built);
    }
    for _ in 0..40 {
        let built = any_section(&mut bench.random, Size::Long);
        longest(bench, &built);
        let built = any_section(&mut bench.random, Size::Short);
        longest(bench, &built);
        let built = filled_section(&mut bench.random);
        accepted(bench, &built);
    }
    let built = sealed(&mut bench.random, LONGEST - 17);
    longest(bench, &built);
}

/// Grown to 4,096 bytes a section is accepted, with one or two bytes more it is not.
fn longest(bench: &mut Bench, built: &Built) {
    let missing = LONGEST - built.bytes.len();
    for (more, row) in [(0, 0), (1, SIZE), (2, SIZE)] {
        let more = bench.random.bytes(missing + more);
        assert_eq!(bench.accept(&grown(&built.bytes, &more)), row);
    }
}

/// A right header, and behind it random bytes among which small ones are many.
pub fn of_random_bytes(bench: &mut Bench) {
    for _ in 0..150_000 {
        let count = bench.random.within(3..=40);
        let mut inside = bench.random.bytes(count);
        for byte in &mut inside {
            *byte = match bench.random.within(0..=3) {
                0 => *byte,
                1 => 0,
                _ => *byte % 16,
            };
        }
        inside[0] = bench.random.one_of(&[0, 4, 4, 5, 5, 6, 7, 0xFF, inside[0]]);
        let stated = bench.random.one_of(&[0xFF, 0xFF, 0, 1, 5, inside[1]]);
        let flags = bench.random.one_of(&[0x0F, 0x00, 0x00]);
        let header = [0xFC, 0x30, 0, 0, 0, 0, 0, 0, 0, 0, 0, flags, stated];
        let whole = [header.as_slice(), &inside, &[0; 4]].concat();
        bench.accept(&with_length_and_crc(&whole));
    }
}
