//! The sample day: its files are what the program makes and answers, and every kind of answer is there.

use second::day;
use second::house::{dash_duration, DashDuration};
use second::lines::answers;
use second::reading::{descriptor, Descriptor};
use second::samples::PUBLISHED;
use second::section::{accept, Inside};
use second::text::text_to_section;
use std::collections::BTreeSet;

const DAY: &str = include_str!("../../samples/day.txt");
const ANSWERS: &str = include_str!("../../samples/day.answers");
const PAGE: &str = include_str!("../../samples/README.md");

/// The section of a line, counted from 1.
fn section(line: usize) -> Vec<u8> {
    let text = DAY.lines().nth(line - 1).expect("a line");
    text_to_section(text.as_bytes(), usize::MAX).expect("a text")
}

#[test]
fn the_texts_are_those_that_the_program_makes() {
    assert_eq!(DAY, day::file());
    assert_eq!(DAY.lines().count(), 33);
}

#[test]
fn the_answers_are_those_that_the_program_gives() {
    assert_eq!(ANSWERS, answers(DAY.as_bytes()));
}

/// Each line's answer was written down before it was computed.
#[test]
fn the_answers_are_those_that_were_meant() {
    let meant: String = day::lines()
        .iter()
        .map(|line| format!("{}\n", line.answer))
        .collect();
    assert_eq!(ANSWERS, meant);
}

#[test]
fn every_kind_of_answer_is_there() {
    let met: BTreeSet<&str> = ANSWERS
        .lines()
        .map(|answer| if answer.starts_with('A') { "A" } else { answer })
        .collect();
    let every = "A,B,N,X,R 1,R 2,R 3,R 4,R 5,R 6,R 7,R 8,R 9,R 10,R 12,R 13,R 14";
    assert_eq!(met, every.split(',').collect());
}

/// Both reasons for which a cue is unread.
#[test]
fn one_is_sealed_and_one_has_an_unknown_command() {
    let unread = ANSWERS.lines().enumerate().filter(|(_, line)| *line == "X");
    let sealed = unread.map(|(at, _)| {
        let section = accept(&section(at + 1)).expect("an accepted section");
        matches!(section.inside, Inside::Sealed(_))
    });
    assert_eq!(sealed.collect::<Vec<bool>>(), [true, false]);
}

/// The low 32 bits of its duration are 12 seconds.
#[test]
fn the_cashiers_cue() {
    let ticks: u64 = 4_296_047_296;
    assert_eq!(ticks & 0xFFFF_FFFF, 12 * 90_000);
    let fields = second::section::listing(&accept(&section(6)).expect("an accepted section"));
    assert!(fields.contains(&format!("segmentation_duration: {ticks} ")));
    assert!(fields.contains("splice_descriptor()"));
    let fields = second::section::listing(&accept(&section(7)).expect("an accepted section"));
    assert!(fields.contains(&format!("segmentation_duration: {ticks} ")));
    assert!(!fields.contains("splice_descriptor()"));
    let answers: Vec<&str> = ANSWERS.lines().collect();
    assert_eq!(answers[5..7], ["A 47733858", "A 47733858"]);
}

/// A program of 7,200 seconds starts, and beside it a placement opportunity of 60, or of no told
/// length: the breaks differ, the DASH events do not.
#[test]
fn the_cues_beside_a_program() {
    let ticks = 7_200 * 90_000;
    for line in [32, 33] {
        let section = section(line);
        let lasts = DashDuration::Lasts { ticks };
        assert_eq!(dash_duration(&section), Ok(lasts));
        let segmentation = |n| match descriptor(&section, n) {
            Ok(Descriptor::Segmentation(segmentation)) => segmentation,
            other => panic!("no segmentation descriptor: {other:?}"),
        };
        let (program, opportunity) = (segmentation(0), segmentation(1));
        assert_eq!(program.segmentation_type_id, 0x10);
        assert_eq!(program.segmentation_duration, Some(ticks));
        assert_eq!(opportunity.segmentation_type_id, 0x34);
        let minute = (line == 32).then_some(60 * 90_000);
        assert_eq!(opportunity.segmentation_duration, minute);
    }
    let answers: Vec<&str> = ANSWERS.lines().collect();
    assert_eq!(answers[31..33], ["A 60000", "B"]);
}

#[test]
fn published_samples_are_among_the_lines() {
    let printed = PUBLISHED.iter().filter(|sample| {
        let printed = sample.printed.text;
        DAY.lines().any(|line| line == printed)
    });
    assert_eq!(printed.count(), 8);
    let whole = PUBLISHED.iter().filter_map(|sample| sample.whole());
    let whole: BTreeSet<&str> = whole.filter(|text| DAY.contains(*text)).collect();
    assert_eq!(whole.len(), 9);
}

#[test]
fn the_page_has_the_table() {
    assert!(PAGE.contains(&day::table()));
}

/// Every refusal of the day stands in the page's list, with its name.
#[test]
fn the_page_names_the_refusals() {
    for answer in ANSWERS.lines() {
        if let Some(number) = answer.strip_prefix("R ") {
            let number: u8 = number.parse().expect("a number");
            let name = second::refusal::name(number).expect("a refusal");
            assert!(PAGE.contains(&format!("\n| {number} {name} | ")));
        }
    }
}
