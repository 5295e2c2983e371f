//! Line mode: base64 texts, one a line, and one answer line for each (01, "The program").

use crate::house::{break_answer, Break};
use crate::text::{text_to_section, LONGEST_TEXT};
use crate::units::ticks_to_millis;
use std::io::{self, ErrorKind, Read, Write};

/// The most that is read at once.
const PIECE: usize = 64 * 1024;

/// The answer to a text, without a newline: `A m`, `B`, `N`, `X` or `R n`.
pub fn answer(text: &[u8]) -> String {
    match text_break(text) {
        Ok(Break::Measured { ticks }) => format!("A {}", ticks_to_millis(ticks)),
        Ok(Break::WithoutMeasure) => "B".to_string(),
        Ok(Break::None) => "N".to_string(),
        Ok(Break::Unread) => "X".to_string(),
        Err(number) => format!("R {number}"),
    }
}

/// The text's own refusal comes first, then the section's. There is room for every text.
fn text_break(text: &[u8]) -> Result<Break, u8> {
    let section = text_to_section(text, usize::MAX)?;
    break_answer(&section)
}

/// The answer lines to a whole input. What stands behind the last newline is a line too, unless it
/// is empty.
pub fn answers(input: &[u8]) -> String {
    let lines = input.split_inclusive(|byte| *byte == b'\n');
    let texts = lines.map(|line| line.strip_suffix(b"\n").unwrap_or(line));
    texts.map(|text| answer(text) + "\n").collect()
}

/// The same for an input that is read in pieces. The answers to a piece are written before the next
/// one is read, and whatever the input, no more than a piece, its answers and a line are kept.
pub fn tally(mut input: impl Read, mut output: impl Write) -> io::Result<()> {
    let mut room = [0; PIECE];
    let mut line = Line::default();
    loop {
        let piece = next_piece(&mut input, &mut room)?;
        if piece.is_empty() {
            return write(&mut output, &line.ended());
        }
        let lines: String = piece.iter().map(|byte| line.take(*byte)).collect();
        write(&mut output, &lines)?;
    }
}

fn write(output: &mut impl Write, lines: &str) -> io::Result<()> {
    output.write_all(lines.as_bytes())?;
    output.flush()
}

/// Some bytes more of the input; none at its end.
fn next_piece<'a>(input: &mut impl Read, room: &'a mut [u8]) -> io::Result<&'a [u8]> {
    loop {
        match input.read(room) {
            Err(error) if error.kind() == ErrorKind::Interrupted => {}
            result => return result.map(|count| &room[..count]),
        }
    }
}

/// The line that is being read. Of one that is too long, no more is kept than shows that it is.
#[derive(Default)]
struct Line {
    kept: Vec<u8>,
}

impl Line {
    /// Takes the next byte. A newline gives the answer line, any other byte nothing yet.
    fn take(&mut self, byte: u8) -> String {
        if byte == b'\n' {
            return self.answered();
        }
        if self.kept.len() <= LONGEST_TEXT {
            self.kept.push(byte);
        }
        String::new()
    }

    /// The input has ended: the answer line, if there is a line.
    fn ended(&mut self) -> String {
        if self.kept.is_empty() {
            return String::new();
        }
        self.answered()
    }

    fn answered(&mut self) -> String {
        let line = answer(&self.kept) + "\n";
        self.kept.clear();
        line
    }
}

#[cfg(test)]
mod tests;
