//! Built sections with a length or a count changed, and two at once, the CRC put right.

use crate::support::built::{any_section, with_crc, with_length_and_crc, Built, Mark, Size};
use crate::support::Bench;
use second::bits::{read_field, write_field};
use std::collections::BTreeMap;

/// Every length and count that a section can have, and the type that sub-segments depend on.
const NAMES: [&str; 10] = [
    "audio_count",
    "component_count",
    "descriptor_length",
    "descriptor_loop_length",
    "dtmf_count",
    "section_length",
    "segmentation_type_id",
    "segmentation_upid_length",
    "splice_command_length",
    "splice_count",
];

/// How often each was changed.
type Changed = BTreeMap<&'static str, usize>;

pub fn of_short_sections(bench: &mut Bench) {
    let mut changed = Changed::new();
    for _ in 0..4_000 {
        let built = any_section(&mut bench.random, Size::Short);
        try_all(bench, &built, &mut changed);
    }
    assert!(changed.keys().eq(&NAMES), "{changed:?}");
    assert!(changed.values().all(|times| *times >= 1000), "{changed:?}");
}

pub fn of_long_sections(bench: &mut Bench) {
    let mut changed = Changed::new();
    for _ in 0..40 {
        let built = any_section(&mut bench.random, Size::Long);
        try_all(bench, &built, &mut changed);
    }
}

fn try_all(bench: &mut Bench, built: &Built, changed: &mut Changed) {
    for mark in some_marks(bench, built, 12) {
        for value in values(bench, built, mark) {
            let mut section = built.bytes.clone();
            write_field(&mut section, mark.at, mark.width, value);
            bench.accept(&with_crc(&section));
            *changed.entry(mark.name).or_default() += 1;
        }
    }
    for _ in 0..4 {
        let mut section = built.bytes.clone();
        for mark in some_marks(bench, built, 1)
            .into_iter()
            .chain(some_marks(bench, built, 1))
        {
            let values = values(bench, built, mark);
            let value = bench.random.one_of(&values);
            write_field(&mut section, mark.at, mark.width, value);
        }
        bench.accept(&with_length_and_crc(&section));
    }
}

/// All the places of lengths and counts, or so many of them at random.
fn some_marks<'a>(bench: &mut Bench, built: &'a Built, most: usize) -> Vec<&'a Mark> {
    if built.marks.len() <= most {
        return built.marks.iter().collect();
    }
    let last = built.marks.len() - 1;
    (0..most)
        .map(|_| &built.marks[bench.random.within(0..=last)])
        .collect()
}

/// One and two up and down, none, one, half, all, all but one, and some other.
fn values(bench: &mut Bench, built: &Built, mark: &Mark) -> [u64; 10] {
    let now = read_field(&built.bytes, mark.at, mark.width);
    let all = (1 << mark.width) - 1;
    let near = |step| now.wrapping_add_signed(step) & all;
    [
        near(-2),
        near(-1),
        near(1),
        near(2),
        0,
        1,
        all / 2 + 1,
        all - 1,
        all,
        bench.random.field(mark.width),
    ]
}
