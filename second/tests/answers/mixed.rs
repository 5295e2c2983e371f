//! Time signals with segmentation descriptors of mixed types: the break and the DASH duration are what
//! was put in.

use crate::built::mixed_signal;
use crate::counts::Counts;
use crate::random;
use second::reading::numbers;
use second::section::Apart;

#[test]
fn what_was_put_in_measures() {
    let random = &mut random();
    let mut counts = Counts::default();
    for _ in 0..20_000 {
        let mixed = mixed_signal(random);
        let section = Apart::of(&mixed.built.bytes);
        let opened = numbers(&section.break_answer().unwrap());
        assert_eq!(opened, mixed.break_numbers());
        let lasts = numbers(&section.dash_duration().unwrap());
        assert_eq!(lasts, mixed.dash_numbers());
        counts.count(sort(&opened, &lasts));
    }
    let expected = SORTS.map(String::from);
    counts.reached(&expected, 100);
}

const SORTS: [&str; 9] = [
    "no break and no duration",
    "no break, a duration",
    "a break and no duration",
    "a break without measure, a duration",
    "a break of 0, the longest",
    "a break of 0, a longer duration",
    "a break, the longest",
    "a break, a longer duration",
    "a break of 2^40 - 1",
];

/// How the numbers of the break and those of the DASH duration stand to each other.
fn sort(opened: &[u64], lasts: &[u64]) -> &'static str {
    match (opened, lasts) {
        ([0], [0]) => "no break and no duration",
        ([0], [1, _]) => "no break, a duration",
        ([2], [0]) => "a break and no duration",
        ([2], [1, _]) => "a break without measure, a duration",
        ([1, 0], [1, 0]) => "a break of 0, the longest",
        ([1, 0], [1, _]) => "a break of 0, a longer duration",
        ([1, 0xFF_FFFF_FFFF], [1, 0xFF_FFFF_FFFF]) => "a break of 2^40 - 1",
        ([1, ticks], [1, longest]) if ticks == longest => "a break, the longest",
        ([1, ticks], [1, longest]) if ticks < longest => "a break, a longer duration",
        other => panic!("this cannot be: {other:?}"),
    }
}
