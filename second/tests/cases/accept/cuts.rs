//! Built sections cut at every length, and grown, the lengths and the CRC put right or left wrong.

use crate::support::built::{
    any_section, cut, grown, longest_section, middling_section, with_crc, Built, Size,
};
use crate::support::Bench;

pub fn of_short_sections(bench: &mut Bench) {
    for _ in 0..1_200 {
        let built = any_section(&mut bench.random, Size::Short);
        for count in 0..=built.bytes.len() {
            try_cut(bench, &built, count);
        }
        for count in 1..=6 {
            let more = bench.random.bytes(count);
            bench.accept(&grown(&built.bytes, &more));
            bench.accept(&[&built.bytes, more.as_slice()].concat());
        }
    }
}

pub fn of_long_sections(bench: &mut Bench) {
    for _ in 0..5 {
        let built = middling_section(&mut bench.random);
        for count in 0..=built.bytes.len() {
            try_cut(bench, &built, count);
        }
    }
    let built = longest_section(&mut bench.random);
    for count in 0..=built.bytes.len() {
        try_cut(bench, &built, count);
    }
    for _ in 0..100 {
        let built = any_section(&mut bench.random, Size::Long);
        for _ in 0..20 {
            let count = bench.random.within(0..=built.bytes.len());
            try_cut(bench, &built, count);
        }
    }
}

fn try_cut(bench: &mut Bench, built: &Built, count: usize) {
    let bytes = &built.bytes[..count];
    bench.accept(bytes);
    if count >= 4 {
        // All put right; the CRC only; section_length only.
        let right = cut(bytes, count);
        bench.accept(&right);
        bench.accept(&with_crc(bytes));
        let crc_left_wrong = [&right[..count - 4], &bytes[count - 4..]].concat();
        bench.accept(&crc_left_wrong);
    }
}
