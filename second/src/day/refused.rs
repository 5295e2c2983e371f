//! The lines of the sample day that are refused, in the order of their numbers.

use super::{
    line, of_bytes, placement_opportunity, samples, section, time_signal, with_byte, Line,
};
use crate::samples::TEXT_OF_004;

pub fn lines() -> Vec<Line> {
    let mut lines = as_frames();
    lines.extend(inside());
    lines.extend(as_texts());
    lines
}

/// What is wrong shows before the command is read.
fn as_frames() -> Vec<Line> {
    let good = time_signal(&placement_opportunity(Some(90)));
    let null = section(0, "00 0000");
    vec![
        line("", "R 1", "an empty line"),
        line(
            samples::SECOND_TEXT_OF_003,
            "R 2",
            "003's second text, which is prose and no section",
        ),
        of_bytes(
            &with_byte(&good, 1, 0xB0),
            "R 3",
            "section_syntax_indicator is 1",
        ),
        line(
            samples::named("000").printed.text,
            "R 4",
            "000's text as printed: four characters too many, so it is longer than it says",
        ),
        line(
            samples::named("002, 14.1").printed.text,
            "R 5",
            "002, clause 14.1, as printed: one letter was misread, and the CRC tells",
        ),
        of_bytes(&with_byte(&good, 3, 1), "R 6", "protocol_version is 1"),
        of_bytes(
            &with_byte(&null, 4, 0x80),
            "R 7",
            "a sealed section of 20 bytes, too short to be one",
        ),
    ]
}

/// What is wrong is the command, the descriptor loop or a descriptor; length and CRC are right.
fn inside() -> Vec<Line> {
    vec![
        of_bytes(
            &section(4, "06 FE 002932E0 0000"),
            "R 8",
            "a time signal of five bytes that says it has four",
        ),
        of_bytes(
            &section(5, "06 FE 002932E0 0007 F0 04 41434D45"),
            "R 9",
            "a descriptor loop that says it is one byte longer than the section has",
        ),
        of_bytes(
            &time_signal("02 0E 43554549 0000000B 7F BF 00 00 34 01"),
            "R 10",
            "a segmentation descriptor that ends before segments_expected",
        ),
    ]
}

fn as_texts() -> Vec<Line> {
    vec![
        line(
            samples::FIRST_TEXT_OF_003,
            "R 12",
            "003's first text as printed: one character was lost, which leaves 47",
        ),
        line(
            TEXT_OF_004.replace('+', "-").replace('/', "_"),
            "R 13",
            "004's cue in the alphabet for file names, where `-` and `_` stand for `+` and `/`",
        ),
        line(
            TEXT_OF_004.replace("oQ==", "oR=="),
            "R 14",
            "004's cue with a bit set behind its last byte, where the padding starts",
        ),
    ]
}
