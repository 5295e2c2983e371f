//! A stream of texts, one a line, that is cut anywhere.

use crate::ffi;
use crate::limits::{LONGEST_TEXT, TURN};
use crate::line::answered;
use crate::refusal::counted;
use crate::Line;

/// Bytes of answers that a turn has room for.
const ROOM: usize = 1 << 16;

/// Answers the lines of a stream that comes in pieces, in order and however it is cut. A line ends with a
/// newline byte or, if it is not empty, with the stream. The memory it takes stays the same.
///
/// ```
/// use timpanimist::{Line, Lines, Refusal};
/// let mut answers = Vec::new();
/// let mut lines = Lines::new();
/// for piece in ["/DA", "0\n\nAA", "AA"] {
///     lines.push(piece.as_bytes(), |line| answers.push(line));
/// }
/// answers.extend(lines.finish());
/// assert_eq!(answers, [Line::Refused(Refusal::Short); 3]);
/// ```
pub struct Lines {
    held: u64,
    carry: Vec<u8>,
    out: Vec<u8>,
}

impl Lines {
    /// The start of a stream.
    pub fn new() -> Lines {
        Lines::with_room(ROOM)
    }

    /// The same with room for so many bytes of answers, which is a line at least.
    fn with_room(room: usize) -> Lines {
        Lines {
            held: 0,
            carry: vec![0; LONGEST_TEXT],
            out: vec![0; room],
        }
    }

    /// Takes the next piece of the stream and hands on the answer of each line that ends in it.
    pub fn push(&mut self, piece: &[u8], mut answer: impl FnMut(Line)) {
        let mut rest = piece;
        while !rest.is_empty() {
            let mut turn = [0; TURN];
            let turned = ffi::lines(self.held, rest, &mut self.carry, &mut self.out, &mut turn);
            counted(turned).expect("there is room for a carried line and a turn");
            let [held, taken, written] = turn;
            self.held = held;
            rest = &rest[taken as usize..];
            answered(&self.out[..written as usize], &mut answer);
        }
    }

    /// Ends the stream: the answer of a last line that has no newline, if there is one.
    pub fn finish(mut self) -> Option<Line> {
        let written = ffi::last_line(self.held, &self.carry, &mut self.out);
        let count = counted(written).expect("there is room for a line");
        let mut last = None;
        answered(&self.out[..count], |line| last = Some(line));
        last
    }
}

impl Default for Lines {
    fn default() -> Lines {
        Lines::new()
    }
}

#[cfg(test)]
mod tests {
    use super::*;
    use crate::limits::LONGEST_LINE;
    use crate::line;

    /// A turn that stops for want of room, with and without something held, loses nothing.
    #[test]
    fn every_small_room_and_every_cut() {
        let cue = b"/DA0AAAAAAAAAAAABQb+ADAQ6QAeAhxDVUVJQAAAO3/PAAEUrEoICAAAAAAg+2UBNAAANvrtoQ==";
        let texts = [&cue[..], b"", b"AAAA", cue, b"x", b"", cue];
        let stream = texts.join(&b'\n');
        let expected: Vec<Line> = texts.iter().map(|text| line(text)).collect();
        for room in LONGEST_LINE..LONGEST_LINE + 12 {
            for piece in 1..=stream.len() {
                let (mut lines, mut answers) = (Lines::with_room(room), Vec::new());
                for piece in stream.chunks(piece) {
                    lines.push(piece, |line| answers.push(line));
                }
                answers.extend(lines.finish());
                assert_eq!(answers, expected, "room {room}, pieces of {piece}");
            }
        }
    }
}
