//! How often each typed answer was given, case by case, and each refusal.

use super::questions::{Listed, Question, QUESTIONS};
use super::tally::Tally;
use second::reading::Entry;
use second::refusal::{self, NOTHERE, ROOM};
use std::collections::BTreeMap;

/// What each answer can be: its cases in the order in which they stand, with a `/` between those
/// that can stand in the same place.
const ANSWERS: [&str; 25] = [
    "command: null",
    "command: schedule",
    "command: insert, time: immediate/not given/given, mode: program, \
     break_duration: absent/present",
    "command: insert, time: immediate/not given, mode: components, \
     break_duration: absent/present",
    "command: cancelled insert",
    "command: time signal, time: not given/given",
    "command: bandwidth reservation",
    "command: private",
    "command: unread",
    "insert component, time: immediate/not given/given",
    "event: event, event mode: program/components, break_duration: absent/present",
    "event: cancelled event",
    "event component",
    "private byte",
    "descriptor count",
    "descriptor: avail",
    "descriptor: DTMF",
    "descriptor: segmentation, mode: program/components, delivery_restrictions: absent/present, \
     duration: absent/present, sub_segments: absent/present",
    "descriptor: cancelled segmentation",
    "descriptor: time",
    "descriptor: audio",
    "DTMF character",
    "segmentation component",
    "audio component",
    "UPID, segmentation_upid: no bytes/bytes",
];

#[derive(Default)]
pub struct Met {
    calls: u64,
    answers: BTreeMap<String, u64>,
    /// By the function's name: 0 for an answer, otherwise the number of the refusal.
    rows: BTreeMap<&'static str, Tally>,
}

impl Met {
    /// What the second program answered.
    pub fn count(&mut self, question: &Question, listed: &Listed) {
        let rows = self.rows.entry(question.function).or_default();
        rows.count(*listed.as_ref().err().unwrap_or(&0));
        if let Ok(list) = listed {
            *self.answers.entry(cases(question, list)).or_default() += 1;
        }
    }

    /// A call of the proved library, and whether it was refused for want of room.
    pub fn call(&mut self, question: &Question, wants_room: bool) {
        self.calls += 1;
        if wants_room {
            self.rows.entry(question.function).or_default().count(ROOM);
        }
    }

    /// Prints how often each answer was given, and ends the test where one was given less often than
    /// that, or one that cannot be.
    pub fn answers_reached(&self, least: u64) {
        println!("{} calls", self.calls);
        reached(&self.answers(), least);
    }

    /// The same for these refusals of each question.
    pub fn refusals_reached(&self, rows: &[u8], least: u64) {
        for question in QUESTIONS {
            reached(&self.refusals(question, rows), least);
        }
    }

    /// How often each answer was given that there can be; there is no other.
    fn answers(&self) -> Vec<(String, u64)> {
        let expected: Vec<String> = ANSWERS.iter().flat_map(|line| all_of(line)).collect();
        let other = self.answers.keys().find(|met| !expected.contains(met));
        assert_eq!(other, None, "there is no such answer");
        let counted = expected.into_iter().map(|answer| {
            let count = *self.answers.get(&answer).unwrap_or(&0);
            (answer, count)
        });
        counted.collect()
    }

    /// How often each of these refusals of a question was given. What takes no numbers is always
    /// there.
    fn refusals(&self, question: &Question, rows: &[u8]) -> Vec<(String, u64)> {
        let may = |row: &&u8| **row != NOTHERE || question.numbers > 0;
        let named = |row| format!("{} {}", question.function, refusal::shown(row));
        let given = &self.rows[question.function];
        let rows = rows.iter().filter(may);
        rows.map(|row| (named(*row), given.of(*row))).collect()
    }
}

/// Prints the counts, and ends the test where one is less than that.
fn reached(counts: &[(String, u64)], least: u64) {
    for (name, count) in counts {
        println!("{count:8} {name}");
    }
    let rare = counts.iter().find(|(_, count)| *count < least);
    assert_eq!(rare, None, "this was reached less than {least} times");
}

/// The cases of an answer, behind its name where it has no cases of its own.
fn cases(question: &Question, list: &[Entry]) -> String {
    let mut cases = Vec::new();
    if !matches!(list, [Entry::Case(what, ..), ..] if *what == question.answer) {
        cases.push(question.answer.to_string());
    }
    for entry in list {
        match entry {
            Entry::Case(what, case, _) => cases.push(format!("{what}: {case}")),
            Entry::Bytes(name, bytes) => {
                let case = if bytes.is_empty() {
                    "no bytes"
                } else {
                    "bytes"
                };
                cases.push(format!("{name}: {case}"));
            }
            Entry::Value(..) => {}
        }
    }
    cases.join(", ")
}

/// Every answer that a line stands for.
fn all_of(line: &str) -> Vec<String> {
    let places = line.split(", ").map(all_of_place);
    let joined = places.reduce(|fronts, cases| {
        let behind = |front: String| cases.iter().map(move |case| format!("{front}, {case}"));
        fronts.into_iter().flat_map(behind).collect()
    });
    joined.expect("a place")
}

fn all_of_place(place: &str) -> Vec<String> {
    match place.split_once(": ") {
        Some((what, cases)) => {
            let cases = cases.split('/');
            cases.map(|case| format!("{what}: {case}")).collect()
        }
        None => vec![place.to_string()],
    }
}
