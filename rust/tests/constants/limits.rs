//! How long an answer can be, and the other limits.

use std::collections::{BTreeMap, BTreeSet};

use crate::declared::{defines, numbered, rows};
use crate::definitions::{answers, stated, value_of, Answers, Element};
use crate::named::NAMED;
use crate::source::{read, text};
use crate::{put, HEADER, READINGS};
use timpanimist::MOST_SHEET;

/// How many numbers the longest list of a definition has.
fn longest(answers: &Answers, definition: &str) -> u64 {
    let of = |element: &Element| match element {
        Element::Part(part) => longest(answers, part),
        _ => 1,
    };
    let cases = answers[definition].iter();
    cases
        .map(|case| case.list.iter().map(of).sum())
        .max()
        .expect("a case")
}

/// The header's limits, as the definitions have them.
fn limits_defined() -> BTreeMap<String, String> {
    let answers = answers();
    let mut defined = numbered(&read("crates/units/src/sizes.rt"), "const ", ": usize =");
    // by the header's names; no caller lends memory for the fields' widths
    for (own, theirs) in [
        ("MOST_SECTION", "LONGEST_SECTION"),
        ("MOST_TEXT", "LONGEST_TEXT"),
    ] {
        let size = defined.remove(own).expect("a size");
        defined.insert(theirs.to_string(), size);
    }
    defined.remove("MOST_FIELDS");
    for named in &NAMED {
        if let Some(limit) = named.limit {
            let mut most = longest(&answers, named.definition);
            if limit == "COMMAND" {
                // an insert by components has no given time, so that the longest mode and the longest time do not meet
                most -= 1;
            }
            put(&mut defined, format!("MOST_{limit}"), most);
        }
    }
    put(
        &mut defined,
        "TURN".to_string(),
        longest(&answers, "turn_numbers"),
    );
    defined.insert(
        "LINE_TOO_LONG".to_string(),
        value_of("held_number Held.TooLong"),
    );
    let law = "pub short : (line : Line) → length (spelled line) ≤ ";
    defined.insert("LONGEST_LINE".to_string(), stated(law));
    // counted and not proved (docs/SHEET.md): `refusals.rs` has a section with so many
    defined.insert("MOST_SHEET".to_string(), MOST_SHEET.to_string());
    defined
}

#[test]
fn limits() {
    let defined = limits_defined();
    assert_eq!(defines(&read(HEADER)), defined);
    let mut ours = numbered(&read("rust/src/limits.rs"), "const ", ": usize =");
    // how a turn names a line that is too long is the business of whoever holds the stream
    ours.extend([(
        "LINE_TOO_LONG".to_string(),
        defined["LINE_TOO_LONG"].clone(),
    )]);
    assert_eq!(ours, defined);
}

/// The numbers in what READINGS says of streams: its limits, ROOM, and 0 for nothing held.
#[test]
fn limits_of_the_page() {
    let page = text(READINGS).replace(',', "");
    let (_, streams) = page
        .split_once("\n## A line and a stream of lines\n")
        .expect("the part");
    let words = streams.split(|c: char| !c.is_ascii_alphanumeric());
    let told: BTreeSet<&str> = words.filter(|word| word.parse::<u64>().is_ok()).collect();
    let defined = limits_defined();
    let limits = ["LONGEST_TEXT", "LINE_TOO_LONG", "LONGEST_LINE", "TURN"];
    let limits = limits.map(|name| &defined[name][..]);
    let room = value_of("number_of Room");
    assert_eq!(told, limits.into_iter().chain([&room[..], "0"]).collect());
}

/// What the header says of the stack is what was measured, in whole KiB.
#[test]
fn stack_of_the_header() {
    let header = text(HEADER);
    let told = |before: &str| -> u64 {
        let (_, behind) = header.split_once(before).expect("what it takes");
        let (number, _) = behind.split_once(" KiB").expect("in KiB");
        number.parse().expect("a number")
    };
    let measured = rows::<3>(&text("docs/BENCHMARKS.md"), "proved | C");
    assert!(!measured.is_empty(), "the tables were not found");
    for [question, bytes, _] in measured {
        let most = match &question[..] {
            "sheet to section" => told("timpanimist_sheet_to_section takes "),
            "section to sheet" => told("timpanimist_section_to_sheet "),
            "text to section" => told("timpanimist_text_to_section "),
            "line" | "lines and last line" => told("the three functions on lines "),
            _ => told("every other function less than "),
        };
        let kibibytes = bytes.parse::<u64>().expect("bytes").div_ceil(1024);
        assert!(kibibytes <= most, "{question}: {bytes} bytes");
    }
}
