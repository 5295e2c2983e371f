//! Answer lines, of one text and of a stream that is cut anywhere.

mod common;

use common::{section, Descriptor, TEXT_OF_004};
use timpanimist::*;

const FIRST_TEXT_OF_003: &[u8] = b"/DAhAAAAAAAAAP/wEAUAAAHAf9/fgAg9YDAAAAAAAA25aoh";
const SECOND_TEXT_OF_003: &[u8] =
    b"QW5vdGhlciB0ZXN0IHN0cmluZyBmb3IgZW5jb2RpbmcgdG8gQmFzZTY0IGVuY29kZWQgYmluYXJ5Lg==";

/// The longest duration that a descriptor can have.
const LONGEST_BREAK: Descriptor = Descriptor {
    tag: 2,
    bytes: 20,
    numbers: &[1, 0, 127, 1, 1, 1, 31, (1 << 40) - 1, 0, 0, 0x30, 0, 0],
};
const WITHOUT_MEASURE: Descriptor = Descriptor {
    tag: 2,
    bytes: 15,
    numbers: &[1, 0, 127, 1, 0, 1, 31, 0, 0, 0x22, 0, 0],
};

fn text(kind: u64, bytes: u64, command: &[u64], descriptors: &[Descriptor]) -> Vec<u8> {
    let section = section(kind, bytes, command, descriptors);
    section_to_text(&section).expect("a text").into_bytes()
}

/// The answers to a stream that comes in these pieces.
fn answers<'a>(pieces: impl IntoIterator<Item = &'a [u8]>) -> Vec<Line> {
    let mut lines = Lines::new();
    let mut answers = Vec::new();
    for piece in pieces {
        lines.push(piece, |line| answers.push(line));
    }
    answers.extend(lines.finish());
    answers
}

/// A line as it is written, which reads back as the same line.
fn written(line: Line) -> String {
    let written = line.to_string();
    assert_eq!(written.parse(), Ok(line));
    written
}

#[test]
fn each_answer() {
    assert_eq!(written(line(TEXT_OF_004)), "A 201467");
    assert_eq!(
        written(line(&text(6, 0xFFF, &[0, 127], &[LONGEST_BREAK]))),
        "A 12216795864"
    );
    assert_eq!(
        written(line(&text(6, 0xFFF, &[0, 127], &[WITHOUT_MEASURE]))),
        "B"
    );
    assert_eq!(written(line(&text(0, 0xFFF, &[], &[]))), "N");
    assert_eq!(written(line(&text(9, 0, &[], &[]))), "X");
    assert_eq!(written(line(SECOND_TEXT_OF_003)), "R 2");
    assert_eq!(written(line(FIRST_TEXT_OF_003)), "R 12");
    assert_eq!(line(b""), Line::Refused(Refusal::Short));
    assert_eq!(line(b"/DA0\n/DA"), Line::Refused(Refusal::TextChar));
    assert_eq!(line(b"/DA0\n"), Line::Refused(Refusal::TextLen));
}

#[test]
fn the_limit_of_a_line() {
    assert_eq!(line(&[b'A'; LONGEST_TEXT]), Line::Refused(Refusal::Table));
    assert_eq!(
        line(&[b'A'; LONGEST_TEXT + 1]),
        Line::Refused(Refusal::TextLen)
    );
    assert_eq!(
        line(&[b'A'; LONGEST_TEXT + 4]),
        Line::Refused(Refusal::TextLen)
    );
}

#[test]
fn strings_that_are_no_lines() {
    for text in [
        "", "A", "A ", "A -1", "A +1", "A 01", "A 1 ", "B 1", "R 0", "R 18", "R 1\n", "n",
    ] {
        assert_eq!(text.parse::<Line>(), Err(NotALine), "{text}");
    }
}

#[test]
fn every_cut_in_two_and_in_single_bytes() {
    let texts = [
        TEXT_OF_004,
        b"",
        SECOND_TEXT_OF_003,
        FIRST_TEXT_OF_003,
        b"\xFF\r",
    ];
    let stream = texts.join(&b'\n');
    let expected: Vec<Line> = texts.iter().map(|text| line(text)).collect();
    for cut in 0..=stream.len() {
        assert_eq!(
            answers([&stream[..cut], &stream[cut..]]),
            expected,
            "cut at {cut}"
        );
    }
    assert_eq!(answers(stream.chunks(1)), expected);
}

#[test]
fn a_stream_that_ends_with_a_newline_or_is_empty() {
    assert_eq!(answers([]), []);
    assert_eq!(answers([&b"\n"[..]]), [Line::Refused(Refusal::Short)]);
    assert_eq!(
        answers([&[TEXT_OF_004, b"\n"].concat()[..]]),
        [line(TEXT_OF_004)]
    );
}

#[test]
fn long_lines_are_one_refusal_and_the_next_is_read() {
    for count in [LONGEST_TEXT, LONGEST_TEXT + 1, LONGEST_TEXT + 4, 100_000] {
        let long = vec![b'A'; count];
        let stream = [&long, TEXT_OF_004, &long].join(&b'\n');
        let expected = [line(&long), line(TEXT_OF_004), line(&long)];
        for piece in [1000, 5464, 5465, 65_536] {
            assert_eq!(
                answers(stream.chunks(piece)),
                expected,
                "{count} in pieces of {piece}"
            );
        }
    }
}

#[test]
fn more_answers_than_a_turn_has_room_for() {
    let stream = [TEXT_OF_004, b""].join(&b'\n').repeat(20_000);
    let answers = answers([&stream[..]]);
    assert_eq!(answers, [line(TEXT_OF_004); 20_000]);
}
