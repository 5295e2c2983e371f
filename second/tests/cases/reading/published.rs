//! The samples that the papers print; of 004's cue the answers that README.md prints.

use crate::cases::published::{damaged, whole};
use crate::support::built::with_length_and_crc;
use crate::support::questions::{COMMAND, KNOWN_COUNT, KNOWN_DESCRIPTOR, UPID};
use crate::support::Bench;
use second::samples::TEXT_OF_004;
use second::section::Apart;
use second::text::text_to_section;

pub fn samples(bench: &mut Bench) {
    the_cue_of_004(bench);
    for text in whole() {
        let section = text_to_section(text.as_bytes(), 4096).unwrap();
        bench.ask_everything(&section);
    }
    for text in damaged() {
        let section = text_to_section(text.as_bytes(), 4096).unwrap();
        bench.ask_each(&section);
        bench.ask_everything(&with_length_and_crc(&section));
    }
}

fn the_cue_of_004(bench: &mut Bench) {
    let section = text_to_section(TEXT_OF_004.as_bytes(), 4096).unwrap();
    let section = Apart::of(&section);
    let descriptor = [
        2, 1073741883, 0, 1, 0, 1, 1, 3, 1, 18132042, 8, 8, 52, 0, 0, 0,
    ];
    let answers = [
        (&COMMAND, [].as_slice(), [4, 2, 3150057].as_slice()),
        (&KNOWN_COUNT, &[], &[1]),
        (&KNOWN_DESCRIPTOR, &[0], &descriptor),
        (&UPID, &[0], &[40, 8]),
    ];
    for (question, at, expected) in answers {
        let answer = bench.answer(question, &section, at);
        assert_eq!(answer.as_deref(), Ok(expected), "{}", question.function);
    }
}
