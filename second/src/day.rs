//! The sample day, which ships as `samples/day.txt`: every kind of answer that a line can have, the
//! papers' own samples among the lines. All else is made here, so that no text is made by hand.

mod refused;

use crate::made::{section, with_byte};
use crate::samples::{self, whole};
use crate::text::section_to_text;

/// A line of the day.
pub struct Line {
    pub text: String,
    pub answer: &'static str,
    /// What it is, in plain words.
    pub what: &'static str,
}

fn line(text: impl Into<String>, answer: &'static str, what: &'static str) -> Line {
    let text = text.into();
    Line { text, answer, what }
}

/// A line with the text of these bytes.
fn of_bytes(section: &[u8], answer: &'static str, what: &'static str) -> Line {
    let text = section_to_text(section, usize::MAX).expect("not too long for a text");
    let text = String::from_utf8(text).expect("base64 is plain text");
    line(text, answer, what)
}

/// Every line, in order.
pub fn lines() -> Vec<Line> {
    let mut lines = breaks_of_the_papers();
    lines.extend(breaks());
    lines.extend(no_breaks());
    lines.extend(unread());
    lines.extend(refused::lines());
    lines.extend(beside_a_program());
    lines
}

/// The day as a file: each text and a newline.
pub fn file() -> String {
    lines()
        .iter()
        .map(|line| line.text.clone() + "\n")
        .collect()
}

/// The table of `samples/README.md`.
pub fn table() -> String {
    let rows = lines().into_iter().enumerate().map(|(at, line)| {
        let Line { answer, what, .. } = line;
        format!("| {} | `{answer}` | {what} |\n", at + 1)
    });
    "| line | answer | what it is |\n|---|---|---|\n".to_string() + &rows.collect::<String>()
}

fn breaks_of_the_papers() -> Vec<Line> {
    vec![
        line(
            whole("004"),
            "A 201467",
            "004's cue, as printed: a placement opportunity of 201.467 seconds starts",
        ),
        line(
            whole("002, 14.1"),
            "A 307000",
            "002, clause 14.1, restored: a placement opportunity of 307 seconds starts",
        ),
        line(
            whole("002, 14.2"),
            "A 60293",
            "002, clause 14.2, restored: an insert with a break of 60.293 seconds",
        ),
        line(
            whole("003, first"),
            "A 24000",
            "003's first text, restored: an insert with a break of 24 seconds",
        ),
        line(
            whole("000"),
            "A 19000",
            "the text of 000 and 001, restored: an insert, at once, with a break of 19 seconds",
        ),
    ]
}

/// An unknown descriptor: its tag and its identifier, `ACME`, are those of nobody.
const UNKNOWN: &str = "F0 08 41434D45 01020304";

/// A time signal with these descriptors (hex).
fn time_signal(descriptors: &str) -> Vec<u8> {
    let loop_length = descriptors.replace(' ', "").len() / 2;
    section(
        5,
        &format!("06 FE 002932E0 {loop_length:04x} {descriptors}"),
    )
}

/// A segmentation descriptor of this event and type, without a duration or with one of so many ticks.
fn segmentation(event: u32, type_id: u8, duration: Option<u64>) -> String {
    let behind = format!("00 00 {type_id:02x} 01 01");
    match duration {
        None => format!("02 0F 43554549 {event:08x} 7F BF {behind}"),
        Some(ticks) => format!("02 14 43554549 {event:08x} 7F FF {ticks:010x} {behind}"),
    }
}

fn placement_opportunity(duration: Option<u64>) -> String {
    segmentation(0x0B, 0x34, duration)
}

/// Of the forty bits of this duration, the low 32 alone would be 1,080,000 ticks, or 12 seconds.
const CASHIER_TICKS: u64 = 4_296_047_296;

/// An insert of the program, at once: its flags (hex) and what they ask for.
fn insert(flags: &str, behind: &str) -> Vec<u8> {
    let command = format!("00000009 7F {flags} {behind} 0002 03 04");
    let length = command.replace(' ', "").len() / 2;
    section(length as u16, &format!("05 {command} 0000"))
}

fn breaks() -> Vec<Line> {
    let cashier = placement_opportunity(Some(CASHIER_TICKS));
    vec![
        of_bytes(
            &time_signal(&format!("{UNKNOWN} {cashier}")),
            "A 47733858",
            "the cashier's cue: a placement opportunity of 4,296,047,296 ticks, which are more than \
             32 bits can hold, behind a descriptor that nobody knows",
        ),
        of_bytes(
            &time_signal(&cashier),
            "A 47733858",
            "the cashier's cue without the descriptor that nobody knows",
        ),
        of_bytes(
            &insert("FF", "FE00000000"),
            "A 0",
            "an insert with a break of 0 ticks, which is a measured break",
        ),
        of_bytes(
            &time_signal(&placement_opportunity(None)),
            "B",
            "a placement opportunity without a duration",
        ),
        of_bytes(
            &insert("DF", ""),
            "B",
            "an insert that leaves the network, without a duration",
        ),
    ]
}

fn no_breaks() -> Vec<Line> {
    vec![
        line(
            whole("002, 14.3"),
            "N",
            "002, clause 14.3, as printed: a placement opportunity ends",
        ),
        line(
            whole("002, 14.5"),
            "N",
            "002, clause 14.5, as printed: an overlapping program starts",
        ),
        line(
            whole("002, 14.7"),
            "N",
            "002, clause 14.7, as printed: a program ends",
        ),
        line(
            whole("002, 14.8"),
            "N",
            "002, clause 14.8, restored: a placement opportunity and a program end, another program \
             starts",
        ),
        of_bytes(
            &section(0, "00 0000"),
            "N",
            "a null command, the heartbeat of a channel",
        ),
        of_bytes(
            &section(5, "05 00000009 FF 0000"),
            "N",
            "an insert that is cancelled",
        ),
    ]
}

fn unread() -> Vec<Line> {
    let open = time_signal(&placement_opportunity(Some(CASHIER_TICKS)));
    vec![
        of_bytes(
            &with_byte(&open, 4, 0x80),
            "X",
            "a sealed section: encrypted_packet is 1",
        ),
        of_bytes(
            &section(3, "08 010203 0000"),
            "X",
            "a command of the type 8, which 002 reserves",
        ),
    ]
}

/// Two hours and a minute, in ticks.
const PROGRAM_TICKS: u64 = 2 * 3_600 * 90_000;
const MINUTE_TICKS: u64 = 60 * 90_000;

/// These came after the others; they stand at the end, so that every line keeps its number.
fn beside_a_program() -> Vec<Line> {
    let program = segmentation(0x0C, 0x10, Some(PROGRAM_TICKS));
    let beside = |duration| {
        let opportunity = segmentation(0x0D, 0x34, duration);
        time_signal(&format!("{program} {opportunity}"))
    };
    vec![
        of_bytes(
            &beside(Some(MINUTE_TICKS)),
            "A 60000",
            "a program of two hours starts beside a placement opportunity of 60 seconds, which alone \
             is the break",
        ),
        of_bytes(
            &beside(None),
            "B",
            "the same cue with the opportunity's duration taken out: the program's does not measure \
             the break",
        ),
    ]
}
