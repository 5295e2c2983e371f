//! The bench's house questions. Each is put in rooms of every kind, so that one question compares the
//! answer, the refusal for want of room, and all that must stay as it was.

use super::lent::Lent;
use super::questions::Listed;
use super::report::{same_memory, CountAnswer};
use super::rooms::{in_room, rooms};
use super::Bench;
use crate::proved::house as proved;
use second::bits::read_field;
use second::hex::to_hex;
use second::house::{Break, DashDuration, Label};
use second::reading::{entries, numbers, Entry};
use second::refusal::{self, ROOM, SEALED, SHORT};
use second::section::{Apart, Inside};

/// More numbers than any answer has.
const PLENTY: usize = 8;

/// A house question about a section alone, which all are but the label.
pub struct HouseQuestion {
    /// The function's name in the archive, behind `timpanimist_`.
    pub function: &'static str,
    /// The second program's word for it.
    word: &'static str,
    pub second: fn(&Apart) -> Listed,
    pub proved: fn(&mut [u8], &mut [u64]) -> u64,
    /// Whether a sealed section is refused.
    sealed: bool,
}

pub static BREAK: HouseQuestion = HouseQuestion {
    function: "break",
    word: "break",
    second: |section| section.break_answer().map(|answer| entries(&answer)),
    proved: proved::break_answer,
    sealed: false,
};

pub static DASH_DURATION: HouseQuestion = HouseQuestion {
    function: "dash_duration",
    word: "dash-duration",
    second: |section| section.dash_duration().map(|answer| entries(&answer)),
    proved: proved::dash_duration,
    sealed: true,
};

pub static EFFECTIVE_TIME: HouseQuestion = HouseQuestion {
    function: "effective_time",
    word: "effective-time",
    second: |section| section.effective_time().map(|answer| entries(&answer)),
    proved: proved::effective_time,
    sealed: true,
};

pub static DVB: HouseQuestion = HouseQuestion {
    function: "dvb",
    word: "dvb",
    second: |section| section.dvb().map(|answer| entries(&answer)),
    proved: proved::dvb,
    sealed: true,
};

pub static HOUSE_QUESTIONS: [&HouseQuestion; 4] = [&BREAK, &DASH_DURATION, &EFFECTIVE_TIME, &DVB];

/// What can be answered where nothing is refused. A duration of 0 is counted apart, and so are a break
/// and the longest duration where they are not the same, and a time that wraps; what is unread and
/// the house name, by why they are answered.
const ANSWERS: [&str; 20] = [
    "break: none",
    "break: measured",
    "break: measured, 0",
    "break: measured, beside a longer duration",
    "break: without measure",
    "break: without measure, beside a duration",
    "break: unread, a command",
    "break: unread, sealed",
    "DASH duration: none",
    "DASH duration: given",
    "DASH duration: given, 0",
    "DASH duration: given, no break",
    "effective time: none",
    "effective time: given",
    "effective time: given, wrapped",
    "DVB: no",
    "DVB: yes",
    "label: UPID",
    "label: house name, no UPID",
    "label: house name, sealed",
];

impl Bench {
    /// A house question: what is answered where there is room enough.
    pub fn house_answer(
        &mut self,
        question: &HouseQuestion,
        section: &Apart,
    ) -> Result<Vec<u64>, u8> {
        let listed = (question.second)(section);
        self.house.count(named(question, section, &listed));
        let answer = listed.map(|list| flat(&list));
        for room in rooms(&mut self.random, &answer, PLENTY) {
            let answer = in_room(&answer, room);
            let pasted = || {
                let section = to_hex(section.bytes);
                format!("second numbers {} '{section}' # room {room}", question.word)
            };
            let (function, bytes) = (question.function, section.bytes);
            self.same_written(function, bytes, room, &answer, question.proved, pasted);
            if answer == Err(ROOM) {
                self.house.count(refused(question.function, ROOM));
            }
        }
        answer
    }

    /// The bill label under a house name: which of the two slices it lies in, where, and how long it
    /// is. The house name must stay as it was too.
    pub fn bill_label(&mut self, section: &Apart, house_name: &[u8]) -> Vec<u64> {
        let label = section.bill_label(house_name);
        self.house.count(named_label(section, &label));
        let numbers = exported(&label);
        let answer = Ok(numbers.clone());
        for room in rooms(&mut self.random, &answer, PLENTY) {
            let before = Lent::holding(&mut self.random, house_name);
            let mut after = before.clone();
            let answer = in_room(&answer, room);
            let pasted = || {
                let (section, name) = (to_hex(section.bytes), to_hex(house_name));
                format!("second numbers label '{section}' '{name}' # room {room}")
            };
            let call = |section: &mut [u8], out: &mut [u64]| {
                proved::bill_label(section, after.part(), out)
            };
            self.same_written("bill_label", section.bytes, room, &answer, call, pasted);
            let written = CountAnswer::of(&answer);
            same_memory("bill_label", written, "house name", &before, &after, pasted);
            if answer == Err(ROOM) {
                self.house.count(refused("bill_label", ROOM));
            }
        }
        numbers
    }

    /// Every house question, the label under a random house name, which is empty at times.
    pub fn ask_house(&mut self, section: &[u8]) {
        let section = &Apart::of(section);
        for question in HOUSE_QUESTIONS {
            // Says nothing by itself; what matters is that both programs say it.
            let _ = self.house_answer(question, section);
        }
        let length = self.random.one_of(&[0, 1, 5, 8, 40, 300]);
        let house_name = self.random.bytes(length);
        self.bill_label(section, &house_name);
    }

    /// Prints how often each answer and each refusal was given, and ends the test where one was given
    /// less often than that.
    pub fn house_reached(&self, least: u64) {
        let mut expected: Vec<String> = ANSWERS.map(String::from).to_vec();
        for question in HOUSE_QUESTIONS {
            let rows = (SHORT..=ROOM).chain(question.sealed.then_some(SEALED));
            expected.extend(rows.map(|row| refused(question.function, row)));
        }
        expected.push(refused("bill_label", ROOM));
        // The label of a refused section, by the row that refuses it.
        expected.extend((SHORT..ROOM).map(|row| refused("label: house name,", row)));
        self.house.reached(&expected, least);
    }
}

/// What the archive writes of a label: the slice, 0 for the section and 1 for the house name, the
/// place in it and the length.
pub fn exported(label: &Label) -> Vec<u64> {
    match label {
        Label::Upid { .. } => numbers(label),
        Label::HouseName(name) => vec![1, 0, name.len() as u64],
    }
}

/// The numbers of a house answer.
pub fn flat(list: &[Entry]) -> Vec<u64> {
    let number = |entry: &Entry| match entry {
        Entry::Case(_, _, number) => *number,
        Entry::Value(_, value) => *value,
        Entry::Bytes(name, _) => panic!("no house answer has bytes: {name}"),
    };
    list.iter().map(number).collect()
}

fn refused(function: &str, row: u8) -> String {
    format!("{function} {}", refusal::shown(row))
}

/// The name under which an answer is counted.
fn named(question: &HouseQuestion, section: &Apart, listed: &Listed) -> String {
    match listed.as_deref() {
        Ok(list) => named_answer(section, list),
        Err(row) => refused(question.function, *row),
    }
}

fn named_answer(section: &Apart, list: &[Entry]) -> String {
    let (what, case, ticks) = match list {
        [Entry::Case(what, case, _)] => (*what, *case, None),
        [Entry::Case(what, case, _), Entry::Value(_, ticks)] => (*what, *case, Some(*ticks)),
        other => panic!("every house answer has cases: {other:?}"),
    };
    let apart = match (what, case) {
        ("break", "unread") if is_sealed(section) => ", sealed",
        ("break", "unread") => ", a command",
        ("break", "measured") | ("DASH duration", "given") if ticks == Some(0) => ", 0",
        ("break", "measured") if longest(section) > ticks => ", beside a longer duration",
        ("break", "without measure") if longest(section).is_some() => ", beside a duration",
        ("DASH duration", "given") if section.break_answer() == Ok(Break::None) => ", no break",
        ("effective time", "given") if ticks < Some(pts_adjustment(section.bytes)) => ", wrapped",
        _ => "",
    };
    format!("{what}: {case}{apart}")
}

/// The longest duration of all, which is the DASH event's.
fn longest(section: &Apart) -> Option<u64> {
    match section.dash_duration() {
        Ok(DashDuration::Lasts { ticks }) => Some(ticks),
        _ => None,
    }
}

fn named_label(section: &Apart, label: &Label) -> String {
    match (label, section.section()) {
        (Label::Upid { .. }, _) => "label: UPID".to_string(),
        (_, Err(row)) => refused("label: house name,", row),
        (_, Ok(_)) if is_sealed(section) => "label: house name, sealed".to_string(),
        (_, Ok(_)) => "label: house name, no UPID".to_string(),
    }
}

fn pts_adjustment(section: &[u8]) -> u64 {
    read_field(section, 39, 33)
}

fn is_sealed(section: &Apart) -> bool {
    let section = section.section();
    section.is_ok_and(|section| matches!(section.inside, Inside::Sealed(_)))
}
