//! The samples that the papers print; of 004's cue and of 003's first text the figures of 01.

use crate::cases::published::{damaged, whole};
use crate::support::built::with_length_and_crc;
use crate::support::house::{BREAK, DASH_DURATION, DVB, EFFECTIVE_TIME};
use crate::support::Bench;
use second::samples::{RESTORED_TEXT_OF_003, TEXT_OF_004};
use second::section::Apart;
use second::text::text_to_section;

const HOUSE_NAME: &[u8] = b"a house name";

pub fn samples(bench: &mut Bench) {
    the_cue_of_004(bench);
    the_restored_first_text_of_003(bench);
    the_cues_beside_a_program(bench);
    for text in whole() {
        bench.ask_house(&sample(text));
    }
    for text in damaged() {
        bench.ask_house(&sample(text));
        bench.ask_house(&with_length_and_crc(&sample(text)));
    }
}

fn sample(text: &str) -> Vec<u8> {
    text_to_section(text.as_bytes(), 4096).unwrap()
}

fn the_cue_of_004(bench: &mut Bench) {
    let section = sample(TEXT_OF_004);
    let section = Apart::of(&section);
    assert_eq!(bench.house_answer(&BREAK, &section), Ok(vec![1, 18132042]));
    assert_eq!(bench.ticks_to_millis(18132042), 201467);
    let lasts = bench.house_answer(&DASH_DURATION, &section);
    assert_eq!(lasts, Ok(vec![1, 18132042]));
    let time = bench.house_answer(&EFFECTIVE_TIME, &section);
    assert_eq!(time, Ok(vec![1, 3150057]));
    assert_eq!(bench.house_answer(&DVB, &section), Ok(vec![1]));
    assert_eq!(bench.bill_label(&section, HOUSE_NAME), [0, 40, 8]);
}

fn the_restored_first_text_of_003(bench: &mut Bench) {
    let section = sample(RESTORED_TEXT_OF_003);
    let section = Apart::of(&section);
    assert_eq!(bench.house_answer(&BREAK, &section), Ok(vec![1, 2160000]));
    assert_eq!(bench.ticks_to_millis(2160000), 24000);
    let lasts = bench.house_answer(&DASH_DURATION, &section);
    assert_eq!(lasts, Ok(vec![0]));
    let time = bench.house_answer(&EFFECTIVE_TIME, &section);
    assert_eq!(time, Ok(vec![0]));
    assert_eq!(bench.house_answer(&DVB, &section), Ok(vec![1]));
    assert_eq!(bench.bill_label(&section, HOUSE_NAME), [1, 0, 12]);
}

/// Lines 32 and 33 of the sample day: a program of two hours starts, and beside it a placement
/// opportunity of a minute, or of no told length.
fn the_cues_beside_a_program(bench: &mut Bench) {
    let day = second::day::lines();
    for (line, opened) in [(32, vec![1, 5_400_000]), (33, vec![2])] {
        let section = sample(&day[line - 1].text);
        bench.ask_house(&section);
        let section = Apart::of(&section);
        assert_eq!(bench.house_answer(&BREAK, &section), Ok(opened));
        let lasts = bench.house_answer(&DASH_DURATION, &section);
        assert_eq!(lasts, Ok(vec![1, 648_000_000]));
    }
}
