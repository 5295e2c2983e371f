//! Time signals with segmentation descriptors of mixed types: what was put in says what measures the
//! break and how long the DASH event lasts.

use crate::support::built::mixed_signal;
use crate::support::house::{BREAK, DASH_DURATION};
use crate::support::Bench;
use second::section::Apart;

pub fn all(bench: &mut Bench) {
    for _ in 0..20_000 {
        let mixed = mixed_signal(&mut bench.random);
        let section = Apart::of(&mixed.built.bytes);
        let opened = bench.house_answer(&BREAK, &section);
        assert_eq!(opened, Ok(mixed.break_numbers()));
        let lasts = bench.house_answer(&DASH_DURATION, &section);
        assert_eq!(lasts, Ok(mixed.dash_numbers()));
    }
}
