//! A model of the archive's line functions, written from their description alone: what each returns,
//! and what stands in the lent memory afterwards.

use second::lines::answer;
use second::refusal::ROOM;

/// The longest line that is read, and the least memory that a cut line is carried in.
pub const LONGEST_LINE: usize = 5_464;

/// What is handed back as held for a line that is too long already.
pub const TOO_LONG: u64 = 5_465;

/// Room for any answer line.
pub const LONGEST_ANSWER: usize = 23;

/// The answer line of a line that is too long.
const TOO_LONG_ANSWER: &[u8] = b"R 12\n";

/// The answer line of a text.
pub fn line(text: &[u8]) -> Vec<u8> {
    (answer(text) + "\n").into_bytes()
}

/// A turn over a stream: the numbers that come back, or the number of the refusal.
pub fn turn(
    held: u64,
    input: &[u8],
    carry: &mut [u8],
    out: &mut [u8],
    turn: &mut [u64],
) -> Result<(), u8> {
    if carry.len() < LONGEST_LINE || turn.len() < 3 {
        return Err(ROOM);
    }
    let mut held = Held::from(held);
    let (mut taken, mut written) = (0, 0);
    for part in input.split_inclusive(|byte| *byte == b'\n') {
        let Some(end_of_line) = part.strip_suffix(b"\n") else {
            held = held.joined(part, carry);
            taken += part.len();
            break;
        };
        // The line is put together first, also where its answer then has no room.
        let answer = held.answered(end_of_line, carry);
        if answer.len() > out.len() - written {
            break;
        }
        out[written..written + answer.len()].copy_from_slice(&answer);
        written += answer.len();
        taken += part.len();
        held = Held::Some(0);
    }
    turn[..3].copy_from_slice(&[held.number(), taken as u64, written as u64]);
    Ok(())
}

/// The end of a stream: the answer line of what is held, or the number of the refusal.
pub fn last_line(held: u64, carry: &[u8]) -> Result<Vec<u8>, u8> {
    if carry.len() < LONGEST_LINE {
        return Err(ROOM);
    }
    match Held::from(held) {
        Held::Some(0) => Ok(vec![]),
        Held::Some(count) => Ok(line(&carry[..count])),
        Held::TooLong => Ok(TOO_LONG_ANSWER.to_vec()),
    }
}

/// What there is of a line that was cut.
#[derive(Clone, Copy)]
enum Held {
    /// So many characters at the front of the carry.
    Some(usize),
    /// More than are read.
    TooLong,
}

impl Held {
    fn from(number: u64) -> Held {
        match usize::try_from(number) {
            Ok(count) if count <= LONGEST_LINE => Held::Some(count),
            _ => Held::TooLong,
        }
    }

    fn number(self) -> u64 {
        match self {
            Held::Some(count) => count as u64,
            Held::TooLong => TOO_LONG,
        }
    }

    /// This part of the line is put behind what is held, where that fits; otherwise the carry stays.
    fn joined(self, part: &[u8], carry: &mut [u8]) -> Held {
        match self {
            Held::Some(count) if count + part.len() <= LONGEST_LINE => {
                carry[count..count + part.len()].copy_from_slice(part);
                Held::Some(count + part.len())
            }
            _ => Held::TooLong,
        }
    }

    /// The answer of the line that ends with this part. With nothing held, the carry stays.
    fn answered(self, part: &[u8], carry: &mut [u8]) -> Vec<u8> {
        if let Held::Some(0) = self {
            return line(part);
        }
        match self.joined(part, carry) {
            Held::Some(count) => line(&carry[..count]),
            Held::TooLong => TOO_LONG_ANSWER.to_vec(),
        }
    }
}
