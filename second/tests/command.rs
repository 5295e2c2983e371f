//! The command as a person meets it: what it prints and how it ends.

use second::samples::TEXT_OF_004;
use std::process::{Command, Output};

const SECTION_OF_004: &str = "fc30340000000000000000000506fe003010e9001e021c435545494000003b\
                              7fcf000114ac4a08080000000020fb650134000036faeda1";

fn run(words: &[&str]) -> Output {
    Command::new(env!("CARGO_BIN_EXE_second"))
        .args(words)
        .output()
        .expect("the command starts")
}

/// The status and what is on standard output.
fn said(words: &[&str]) -> (i32, String) {
    let output = run(words);
    let text = String::from_utf8(output.stdout).expect("plain text");
    (output.status.code().expect("a status"), text)
}

fn answers(words: &[&str], line: &str) {
    assert_eq!(said(words), (0, format!("{line}\n")), "{words:?}");
}

fn refuses(words: &[&str], line: &str) {
    assert_eq!(said(words), (1, format!("{line}\n")), "{words:?}");
}

#[test]
fn text_and_section_of_004() {
    answers(&["to-section", TEXT_OF_004], SECTION_OF_004);
    answers(&["to-text", SECTION_OF_004], TEXT_OF_004);
    answers(&["crc", SECTION_OF_004], "0x00000000");
}

#[test]
fn one_line_of_line_mode() {
    answers(&["line", TEXT_OF_004], "A 201467");
    answers(&["line", ""], "R 1");
    answers(&["line", "AAAA\n"], "R 12");
    answers(&["line-hex", "4141410a"], "R 13");
    answers(&["line-hex", ""], "R 1");
}

/// What it prints is what ships; `tests/day.rs` says what that is.
#[test]
fn the_sample_day() {
    let ships = include_str!("../../samples/day.txt");
    assert_eq!(said(&["sample-day"]), (0, ships.to_string()));
    let (status, table) = said(&["sample-day", "table"]);
    assert_eq!(status, 0);
    assert!(include_str!("../../samples/README.md").contains(&table));
}

#[test]
fn an_accepted_section_is_listed() {
    let by_text = said(&["accept-text", TEXT_OF_004]);
    assert_eq!(by_text, said(&["accept", SECTION_OF_004]));
    let (status, listing) = by_text;
    assert_eq!(status, 0);
    let lines: Vec<&str> = listing.lines().collect();
    assert_eq!(lines[..2], ["accepted", "table_id: 252 (0xfc)"]);
    assert!(lines.contains(&"    pts_time: 3150057 (0x3010e9)"));
    assert!(lines.contains(&"  segmentation_duration: 18132042 (0x114ac4a)"));
    assert!(lines.contains(&"  segmentation_upid: 0000000020fb6501"));
    assert_eq!(lines.last(), Some(&"CRC_32: 922414497 (0x36faeda1)"));
}

#[test]
fn a_section_that_is_not_accepted() {
    refuses(&["accept", ""], "R 1 SHORT");
    refuses(&["accept", &"00".repeat(20)], "R 2 TABLE");
    refuses(&["accept", &SECTION_OF_004[..108]], "R 4 SIZE");
    refuses(
        &["accept", &SECTION_OF_004.replace("3010e9", "3010e8")],
        "R 5 CRC",
    );
    refuses(&["accept-text", ""], "R 1 SHORT");
    refuses(&["accept-text", "AAA"], "R 12 TEXTLEN");
    refuses(&["accept-text", "AA=A"], "R 13 TEXTCHAR");
    refuses(&["accept-text", "AB=="], "R 14 TEXTBITS");
}

#[test]
fn sheet_of_004() {
    let sheet = "252 0 0 3 0 0 0 0 0 0 5 6 1 63 3150057 30 2 28 1129661769 1073741883 0 127 1 1 0 \
                 0 1 1 3 18132042 8 8 0 0 0 0 32 251 101 1 52 0 0";
    answers(&["sheet", SECTION_OF_004], sheet);
    let mut words = vec!["unsheet"];
    words.extend(sheet.split(' '));
    answers(&words, SECTION_OF_004);
    let with_commas = sheet.replace(' ', ", ");
    words.truncate(1);
    words.extend(with_commas.split(' '));
    answers(&words, SECTION_OF_004);
    words.pop();
    refuses(&words, "R 15 SHEET");
    refuses(&["unsheet"], "R 15 SHEET");
    refuses(&["sheet", &SECTION_OF_004[..108]], "R 4 SIZE");
}

/// The section that has these numbers for its sheet.
fn section_of(sheet: &str) -> String {
    let mut words = vec!["unsheet"];
    words.extend(sheet.split(' '));
    let (status, section) = said(&words);
    assert_eq!(status, 0, "{sheet}");
    section.trim_end().to_string()
}

/// The question has this flat list for its answer.
fn numbers(words: &[&str], list: &str) {
    answers(&[&["numbers"], words].concat(), list);
}

#[test]
fn readings_of_004() {
    let section = SECTION_OF_004;
    answers(
        &["command", section],
        "command: 4 (time signal)\ntime: 2 (given)\npts_time: 3150057 (0x3010e9)",
    );
    answers(&["descriptors", section], "count: 1");
    answers(
        &["upid", section, "0"],
        "offset: 40 (0x28)\nlength: 8\nsegmentation_upid: 0000000020fb6501",
    );
    let (status, listing) = said(&["descriptor", section, "0"]);
    assert_eq!((status, listing.lines().count()), (0, 16));
    numbers(&["command", section], "4 2 3150057");
    numbers(&["descriptors", section], "1");
    let list = "2 1073741883 0 1 0 1 1 3 1 18132042 8 8 52 0 0 0";
    numbers(&["descriptor", section, "0"], list);
    numbers(&["upid", section, "0"], "40 8 0 0 0 0 32 251 101 1");
}

#[test]
fn readings_by_number() {
    let insert = "252 0 0 0 0 0 0 0 0 0 13 5 9 0 0 1 0 0 0 15 1 7 0 127 2 3 4 0";
    let insert = &section_of(insert);
    numbers(&["command", insert], "2 9 1 1 1 1 0 2 3 4");
    numbers(&["insert-component", insert, "0"], "7 1");

    let schedule = "252 0 0 0 0 0 0 0 0 0 17 4 1 9 0 1 1 0 0 31 1 5 6 2 3 4 0";
    let schedule = &section_of(schedule);
    numbers(&["event", schedule, "0"], "0 9 1 1 1 0 2 3 4");
    numbers(&["event-component", schedule, "0", "0"], "5 6");

    let private = &section_of("252 0 0 0 0 0 0 0 0 0 6 255 77 1 2 0");
    numbers(&["private-byte", private, "1"], "2");

    let lists = "252 0 0 0 0 0 0 0 0 0 0 0 46 1 7 1129661769 9 1 31 49 \
                 4 10 1129661769 1 15 255 6 7 15 1 \
                 2 23 1129661769 1 0 0 0 0 1 31 1 5 0 6 9 1 66 16 1 1";
    let lists = &section_of(lists);
    numbers(&["descriptors", lists], "3");
    numbers(&["dtmf-char", lists, "0", "0"], "49");
    numbers(&["audio-component", lists, "1", "0"], "255 6 7 15 1");
    numbers(&["segmentation-component", lists, "2", "0"], "5 6");
    numbers(&["upid", lists, "2"], "58 1 66");
}

#[test]
fn readings_that_are_refused() {
    let section = SECTION_OF_004;
    refuses(&["insert-component", section, "0"], "R 16 NOTHERE");
    refuses(&["event", section, "0"], "R 16 NOTHERE");
    refuses(&["event-component", section, "0", "0"], "R 16 NOTHERE");
    refuses(&["private-byte", section, "0"], "R 16 NOTHERE");
    refuses(&["descriptor", section, "1"], "R 16 NOTHERE");
    refuses(&["dtmf-char", section, "0", "0"], "R 16 NOTHERE");
    let component = "segmentation-component";
    refuses(&[component, section, "0", "0"], "R 16 NOTHERE");
    refuses(&["audio-component", section, "0", "0"], "R 16 NOTHERE");
    refuses(&["upid", section, "18446744073709551615"], "R 16 NOTHERE");
    refuses(&["numbers", "upid", section, "1"], "R 16 NOTHERE");
    let sealed = &section_of("252 0 0 0 0 1 0 0 0 0 0 0 0 0 0 0 0 0");
    refuses(&["command", sealed], "R 17 SEALED");
    refuses(&["descriptors", sealed], "R 17 SEALED");
    refuses(&["upid", sealed, "0"], "R 17 SEALED");
    refuses(&["command", &section[..108]], "R 4 SIZE");
}

#[test]
fn house_answers_of_004() {
    let section = SECTION_OF_004;
    answers(
        &["break", section],
        "break: 1 (measured)\nticks: 18132042 (0x114ac4a)",
    );
    answers(
        &["dash-duration", section],
        "DASH duration: 1 (given)\nticks: 18132042 (0x114ac4a)",
    );
    answers(
        &["effective-time", section],
        "effective time: 1 (given)\nticks: 3150057 (0x3010e9)",
    );
    answers(&["dvb", section], "DVB: 1 (yes)");
    answers(
        &["label", section, "486f757365"],
        "label: 0 (UPID)\noffset: 40 (0x28)\nlength: 8\nbytes: 0000000020fb6501",
    );
    numbers(&["break", section], "1 18132042");
    numbers(&["dash-duration", section], "1 18132042");
    numbers(&["effective-time", section], "1 3150057");
    numbers(&["dvb", section], "1");
    numbers(&["label", section, "486f757365"], "0 40 8");
}

#[test]
fn house_answers_of_other_sections() {
    let null = &section_of("252 0 0 0 0 0 0 0 0 0 0 0 0");
    answers(&["break", null], "break: 0 (none)");
    answers(&["dash-duration", null], "DASH duration: 0 (none)");
    numbers(&["dash-duration", null], "0");
    answers(&["effective-time", null], "effective time: 0 (none)");
    answers(&["dvb", null], "DVB: 0 (no)");
    answers(
        &["label", null, "486f757365"],
        "label: 1 (house name)\nbytes: 486f757365",
    );
    answers(
        &["label", null, ""],
        "label: 1 (house name)\nbytes: no bytes",
    );
    let without = &section_of("252 0 0 0 0 0 0 0 0 0 10 5 9 0 0 1 1 0 1 15 2 3 4 0");
    answers(&["break", without], "break: 2 (without measure)");
    numbers(&["dash-duration", without], "0");
    let unknown = &section_of("252 0 0 0 0 0 0 0 0 0 0 1 0");
    answers(&["break", unknown], "break: 3 (unread)");
    // Sealed, and refused.
    let sealed = &section_of("252 0 0 0 0 1 0 0 0 0 0 0 0 0 0 0 0 0");
    answers(&["break", sealed], "break: 3 (unread)");
    refuses(&["dash-duration", sealed], "R 17 SEALED");
    refuses(&["numbers", "dash-duration", sealed], "R 17 SEALED");
    refuses(&["effective-time", sealed], "R 17 SEALED");
    refuses(&["dvb", sealed], "R 17 SEALED");
    numbers(&["label", sealed, "00"], "1");
    let cut = &SECTION_OF_004[..108];
    refuses(&["break", cut], "R 4 SIZE");
    refuses(&["dash-duration", cut], "R 4 SIZE");
    refuses(&["effective-time", cut], "R 4 SIZE");
    refuses(&["dvb", cut], "R 4 SIZE");
    numbers(&["label", cut, "00"], "1");
    numbers(&["label", "", ""], "1");
}

#[test]
fn answers_are_single_lines() {
    answers(&["to-section", ""], "");
    answers(&["to-section", "Zm9v"], "666f6f");
    answers(&["to-section-hex", "5a6d3976"], "666f6f");
    answers(&["to-text", "666f6f"], "Zm9v");
    answers(&["crc", "313233343536373839"], "0x0376e6e7");
    answers(&["millis", "18132042"], "201467");
    answers(&["clock", "8589934591", "1"], "0");
    answers(&["field", "123456", "4", "12"], "564");
    answers(&["set-field", "ffffff", "4", "12", "564"], "true f234ff");
    answers(&["set-field", "ffffff", "4", "2", "4"], "false ffffff");
}

#[test]
fn refusals_carry_number_and_name() {
    refuses(&["to-section", "AAA"], "R 12 TEXTLEN");
    refuses(&["to-section", "AA=A"], "R 13 TEXTCHAR");
    refuses(&["to-section-hex", "41410041"], "R 13 TEXTCHAR");
    refuses(&["to-section", "AB=="], "R 14 TEXTBITS");
    refuses(&["to-section", "Zm9v", "2"], "R 11 ROOM");
    refuses(&["to-text", "666f6f", "3"], "R 11 ROOM");
    refuses(&["to-text", &"00".repeat(4097)], "R 4 SIZE");
}

#[test]
fn bad_usage_is_told_on_standard_error() {
    let cases: [&[&str]; 28] = [
        &[],
        &["sing"],
        &["accept"],
        &["accept", "fc3"],
        &["accept-text"],
        &["sheet"],
        &["unsheet", "252", "x"],
        &["unsheet", "18446744073709551616"],
        &["command"],
        &["command", "fc", "0"],
        &["event", "fc"],
        &["event-component", "fc", "0"],
        &["upid", "fc", "x"],
        &["break"],
        &["dash-duration"],
        &["dash-duration", "fc", "0"],
        &["dvb", "fc", "0"],
        &["label", "fc"],
        &["label", "fc", "x"],
        &["numbers", "fc"],
        &["numbers", "sheet", "fc"],
        &["to-section"],
        &["to-section", "AAAA", "3", "3"],
        &["to-text", "f"],
        &["crc", "xy"],
        &["millis", "-1"],
        &["millis", "18446744073709551616"],
        &["clock", "1"],
    ];
    for words in cases {
        let output = run(words);
        assert_eq!(output.status.code(), Some(2), "{words:?}");
        assert!(output.stdout.is_empty(), "{words:?}");
        let told = String::from_utf8(output.stderr).expect("plain text");
        assert!(told.starts_with("second: "), "{told}");
        assert!(told.contains("usage: second"), "{told}");
    }
}
