//! The samples that the papers print, as printed and as restored, and the sample day.

use crate::support::Bench;
use second::day;
use second::samples::{FIRST_TEXT_OF_003, PUBLISHED, SECOND_TEXT_OF_003, TEXT_OF_004};

pub fn all(bench: &mut Bench) {
    samples(bench);
    the_sample_day(bench);
    the_three_lines_of_01(bench);
}

fn samples(bench: &mut Bench) {
    for sample in &PUBLISHED {
        for text in [&sample.printed].into_iter().chain(&sample.restored) {
            assert_eq!(
                bench.line(text.text.as_bytes()),
                text.answer,
                "{}",
                sample.name
            );
        }
    }
}

fn the_sample_day(bench: &mut Bench) {
    for line in day::lines() {
        assert_eq!(
            bench.line(line.text.as_bytes()),
            line.answer,
            "{}",
            line.what
        );
    }
}

fn the_three_lines_of_01(bench: &mut Bench) {
    let expected = [
        (TEXT_OF_004, "A 201467"),
        (SECOND_TEXT_OF_003, "R 2"),
        (FIRST_TEXT_OF_003, "R 12"),
    ];
    for (text, answer) in expected {
        assert_eq!(bench.line(text.as_bytes()), answer);
    }
}
