//! The answer line of a text.

use std::error::Error;
use std::fmt;
use std::str::{self, FromStr};

use crate::ffi;
use crate::limits::LONGEST_LINE;
use crate::refusal::counted;
use crate::{Millis, Refusal};

/// What a text says of its break, in one line.
#[derive(Clone, Copy, Debug, PartialEq, Eq, Hash)]
pub enum Line {
    /// `A m`: a break of m milliseconds.
    Measured(Millis),
    /// `B`: a break without measure.
    Unmeasured,
    /// `N`: no break.
    None,
    /// `X`: sealed, or of a splice_command_type that the standard does not have.
    Unread,
    /// `R n`: refused, as a text or else as a section.
    Refused(Refusal),
}

/// The answer to one text, a line without its newline.
///
/// ```
/// use timpanimist::{line, Line, Millis, Refusal};
/// let text = b"/DA0AAAAAAAAAAAABQb+ADAQ6QAeAhxDVUVJQAAAO3/PAAEUrEoICAAAAAAg+2UBNAAANvrtoQ==";
/// assert_eq!(line(text), Line::Measured(Millis(201_467)));
/// assert_eq!(line(text).to_string(), "A 201467");
/// assert_eq!(line(b""), Line::Refused(Refusal::Short));
/// ```
pub fn line(text: &[u8]) -> Line {
    let mut out = [0; LONGEST_LINE];
    let count = counted(ffi::line(text, &mut out)).expect("the room is that of the longest line");
    let mut answers = Vec::new();
    answered(&out[..count], |line| answers.push(line));
    answers[0]
}

/// Hands on the lines that the archive wrote.
pub(crate) fn answered(written: &[u8], answer: impl FnMut(Line)) {
    let written = str::from_utf8(written).expect("an answer line is ASCII");
    let lines = written
        .lines()
        .map(|line| line.parse().expect("an answer line"));
    lines.for_each(answer);
}

/// As the archive writes it, without its newline.
impl fmt::Display for Line {
    fn fmt(&self, f: &mut fmt::Formatter<'_>) -> fmt::Result {
        match self {
            Line::Measured(Millis(millis)) => write!(f, "A {millis}"),
            Line::Unmeasured => write!(f, "B"),
            Line::None => write!(f, "N"),
            Line::Unread => write!(f, "X"),
            Line::Refused(refusal) => write!(f, "R {}", refusal.number()),
        }
    }
}

/// A string that is no answer line.
#[derive(Clone, Copy, Debug, PartialEq, Eq)]
pub struct NotALine;

impl fmt::Display for NotALine {
    fn fmt(&self, f: &mut fmt::Formatter<'_>) -> fmt::Result {
        write!(
            f,
            "not an answer line: one of `A m`, `B`, `N`, `X`, `R n` is"
        )
    }
}

impl Error for NotALine {}

/// Reads a line of the tally, without its newline.
///
/// ```
/// use timpanimist::{Line, NotALine, Refusal};
/// assert_eq!("R 5".parse(), Ok(Line::Refused(Refusal::Crc)));
/// assert_eq!("A 05".parse::<Line>(), Err(NotALine));
/// ```
impl FromStr for Line {
    type Err = NotALine;

    fn from_str(text: &str) -> Result<Line, NotALine> {
        let line = match text.split_once(' ') {
            Some(("A", millis)) => Line::Measured(Millis(millis.parse().map_err(|_| NotALine)?)),
            Some(("R", number)) => {
                let number = number.parse().map_err(|_| NotALine)?;
                Line::Refused(Refusal::from_number(number).ok_or(NotALine)?)
            }
            Some(_) => return Err(NotALine),
            None => match text {
                "B" => Line::Unmeasured,
                "N" => Line::None,
                "X" => Line::Unread,
                _ => return Err(NotALine),
            },
        };
        // a sign or a leading zero is not how the line is written
        if line.to_string() == text {
            Ok(line)
        } else {
            Err(NotALine)
        }
    }
}
