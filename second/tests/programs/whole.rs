//! Both programs answer the same files alike.

use super::files::files;
use super::programs::{proved, run, second};
use super::same_lines::same_lines;
use super::{random, written};
use second::lines::answers;
use std::fs::File;

#[test]
fn every_file() {
    for file in files(&mut random()) {
        let by_proved = written(run(proved(), &file.input));
        let by_second = written(run(second(), &file.input));
        same_lines(file.name, &file.input, &by_second, &by_proved);
        println!(
            "{:9} bytes, {:6} answers: {}",
            file.input.len(),
            by_proved.iter().filter(|byte| **byte == b'\n').count(),
            file.name
        );
        assert_eq!(
            by_second,
            answers(&file.input).into_bytes(),
            "{}",
            file.name
        );
    }
}

/// The files that ship, standard input being the file itself.
#[test]
fn the_sample_day_gives_the_answers_that_ship() {
    for mut program in [proved(), second()] {
        let day = File::open("../samples/day.txt").expect("the sample day");
        let output = program.stdin(day).output().expect("the program starts");
        let expected = include_str!("../../../samples/day.answers");
        assert_eq!(String::from_utf8_lossy(&written(output)), expected);
    }
}
