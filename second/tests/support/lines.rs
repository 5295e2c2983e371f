//! The bench's questions about lines: one text, a turn over a stream of them, the end of a stream, and
//! a stream from its start to its end. What the second program would do is said by `stream.rs`.

use super::counts::Counts;
use super::lent::Lent;
use super::report::{same_answer, same_memory, CountAnswer};
use super::rooms::{in_room, rooms};
use super::same_lines::same_lines;
use super::stream::{self, LONGEST_ANSWER, LONGEST_LINE};
use super::{Bench, Random};
use crate::proved::lines as proved;
use crate::proved::REFUSED;
use second::hex::to_hex;
use second::lines::answers;
use second::refusal::ROOM;

/// More bytes than any answer line has.
const PLENTY: usize = 40;

/// What a line can be answered.
const ANSWERS: [&str; 17] = [
    "A", "B", "N", "X", "R 1", "R 2", "R 3", "R 4", "R 5", "R 6", "R 7", "R 8", "R 9", "R 10",
    "R 12", "R 13", "R 14",
];

/// What can befall a turn, and the end of a stream.
const TURNS: [&str; 10] = [
    "turn: starts with nothing held",
    "turn: starts with a part of a line held",
    "turn: starts in a line that is too long",
    "turn: ends with nothing held",
    "turn: ends with a part of a line held",
    "turn: ends in a line that is too long",
    "turn: all of the input is taken",
    "turn: the output is full",
    "turn: ROOM",
    "last line: ROOM",
];

/// How much was asked.
#[derive(Clone, Copy, Default)]
pub struct Asked {
    /// Texts, each in one room.
    pub texts: u64,
    pub turns: u64,
    pub streams: u64,
    /// The lines of all streams.
    pub lines: u64,
}

/// What a turn did.
pub struct Turn {
    pub held: u64,
    pub taken: usize,
    pub written: Vec<u8>,
}

/// The memory that a stream is carried in, which is the same for both programs.
#[derive(Clone)]
pub struct Carry(Lent<u8>);

impl Carry {
    pub fn new(random: &mut Random, length: usize) -> Carry {
        Carry(Lent::random(random, length))
    }

    /// One with these bytes in it.
    pub fn holding(random: &mut Random, bytes: &[u8]) -> Carry {
        Carry(Lent::holding(random, bytes))
    }
}

/// All that is lent for a turn and may be written to.
#[derive(Clone)]
struct Memory {
    carry: Lent<u8>,
    out: Lent<u8>,
    turn: Lent<u64>,
}

impl Bench {
    /// The answer line of a text, where there is so much room.
    pub fn line_in(&mut self, text: &[u8], room: usize) -> Result<Vec<u8>, u8> {
        self.same_line(text, &stream::line(text), room)
    }

    /// The same where the second program's line is known already.
    fn same_line(&mut self, text: &[u8], line: &[u8], room: usize) -> Result<Vec<u8>, u8> {
        let answer = in_room(&Ok(line.to_vec()), room);
        let paste = || format!("second line-hex '{}' # room {room}", to_hex(text));
        self.same_written("line", text, room, &answer, proved::line, paste);
        self.lines.count(named_line(&answer));
        self.asked.texts += 1;
        answer
    }

    /// The answer of a text, asked for in rooms of every kind.
    pub fn line(&mut self, text: &[u8]) -> String {
        let line = stream::line(text);
        for room in rooms(&mut self.random, &Ok(line.clone()), PLENTY) {
            // Says nothing by itself; what matters is that both programs say it.
            let _ = self.same_line(text, &line, room);
        }
        String::from_utf8_lossy(&line).trim_end().to_string()
    }

    /// A turn over a stream, with so much room for the answers and for so many numbers.
    pub fn turn(
        &mut self,
        held: u64,
        input: &[u8],
        carry: &mut Carry,
        room: usize,
        numbers: usize,
    ) -> Result<Turn, u8> {
        let before = Lent::holding(&mut self.random, input);
        let mut after = before.clone();
        let mut by_second = Memory {
            carry: carry.0.clone(),
            out: Lent::random(&mut self.random, room),
            turn: Lent::random(&mut self.random, numbers),
        };
        let mut by_proved = by_second.clone();
        let answer = by_second.second(held, input);
        let second = CountAnswer(answer.map_or_else(|row| REFUSED + u64::from(row), |()| 3));
        let proved = CountAnswer(by_proved.proved(held, after.part()));
        let paste = || pasted(held, input, carry, room, numbers);
        same_answer("lines", &second, &proved, paste);
        let (turn, out) = (&by_second.turn, &by_second.out);
        same_memory("lines", second, "turn", turn, &by_proved.turn, paste);
        same_memory("lines", second, "output", out, &by_proved.out, paste);
        same_memory("lines", second, "input", &before, &after, paste);
        let kept = &by_second.carry;
        same_memory("lines", second, "carry", kept, &by_proved.carry, paste);
        self.asked.turns += 1;
        let turn = answer.map(|()| by_second.told());
        count_turn(&mut self.lines, held, input, &turn);
        *carry = Carry(by_second.carry);
        turn
    }

    /// The end of a stream, where there is so much room.
    pub fn last_line_in(
        &mut self,
        held: u64,
        carry: &mut Carry,
        room: usize,
    ) -> Result<Vec<u8>, u8> {
        let carried = carry.0.part().to_vec();
        let answer = in_room(&stream::last_line(held, &carried), room);
        let paste = || pasted(held, b"", carry, room, 0);
        let call = |carry: &mut [u8], out: &mut [u8]| proved::last_line(held, carry, out);
        self.same_written("last_line", &carried, room, &answer, call, paste);
        if answer == Err(ROOM) {
            self.lines.count("last line: ROOM");
        }
        answer
    }

    /// A stream that comes in these parts, each turn with the room that is said. All its answers are
    /// those of its lines.
    pub fn stream(&mut self, parts: &[&[u8]], room: impl Fn(&mut Random) -> usize) {
        let mut carry = Carry::new(&mut self.random, LONGEST_LINE);
        let mut held = 0;
        let mut written = Vec::new();
        for part in parts {
            self.part(&mut held, part, &mut carry, &mut written, &room);
        }
        let last = stream::last_line(held, carry.0.part());
        for room in rooms(&mut self.random, &last, PLENTY) {
            // As above.
            let _ = self.last_line_in(held, &mut carry, room);
        }
        written.extend(last.expect("the carry is long enough"));
        let input = parts.concat();
        let expected = answers(&input);
        same_lines("stream", &input, expected.as_bytes(), &written);
        self.asked.streams += 1;
        self.asked.lines += expected.lines().count() as u64;
    }

    /// One part of a stream, in as many turns as it needs.
    fn part(
        &mut self,
        held: &mut u64,
        part: &[u8],
        carry: &mut Carry,
        written: &mut Vec<u8>,
        room: impl Fn(&mut Random) -> usize,
    ) {
        let mut rest = part;
        let mut room_now = room(&mut self.random);
        loop {
            let turn = self.turn(*held, rest, carry, room_now, 3);
            let turn = turn.expect("the carry is long enough");
            written.extend(&turn.written);
            *held = turn.held;
            rest = &rest[turn.taken..];
            if rest.is_empty() {
                return;
            }
            // Where nothing was taken, the room was too little for the next answer.
            room_now = match turn.taken {
                0 => LONGEST_ANSWER,
                _ => room(&mut self.random),
            };
        }
    }

    /// Prints how often each answer was given, and ends the test where one was given less often than
    /// that.
    pub fn texts_reached(&self, least: u64) {
        println!("{} texts", self.asked.texts);
        let names = ANSWERS.iter().chain(&["line: ROOM"]);
        self.lines
            .reached(&names.map(ToString::to_string).collect::<Vec<_>>(), least);
    }

    /// The same for each sort of turn.
    pub fn turns_reached(&self, least: u64) {
        let Asked {
            turns,
            streams,
            lines,
            ..
        } = self.asked;
        println!("{turns} turns, {streams} streams of {lines} lines");
        let names = TURNS.iter().map(ToString::to_string);
        self.lines.reached(&names.collect::<Vec<_>>(), least);
    }
}

impl Memory {
    fn second(&mut self, held: u64, input: &[u8]) -> Result<(), u8> {
        let (carry, out) = (self.carry.part(), self.out.part());
        stream::turn(held, input, carry, out, self.turn.part())
    }

    fn proved(&mut self, held: u64, input: &mut [u8]) -> u64 {
        let (carry, out) = (self.carry.part(), self.out.part());
        proved::lines(held, input, carry, out, self.turn.part())
    }

    /// What the numbers of the turn say that it did.
    fn told(&mut self) -> Turn {
        let turn = self.turn.part();
        let (held, taken, written) = (turn[0], turn[1] as usize, turn[2] as usize);
        Turn {
            held,
            taken,
            written: self.out.part()[..written].to_vec(),
        }
    }
}

/// A turn, or the end of a stream, with all that it was given.
fn pasted(held: u64, input: &[u8], carry: &Carry, room: usize, numbers: usize) -> String {
    let carried = to_hex(carry.0.clone().part());
    let input = to_hex(input);
    format!("held {held}, input '{input}', carry '{carried}', room {room}, turn {numbers}")
}

fn named_line(answer: &Result<Vec<u8>, u8>) -> String {
    match answer {
        Ok(line) if line.starts_with(b"A") => "A".to_string(),
        Ok(line) => String::from_utf8_lossy(line).trim_end().to_string(),
        Err(_) => "line: ROOM".to_string(),
    }
}

fn count_turn(counts: &mut Counts, held: u64, input: &[u8], turn: &Result<Turn, u8>) {
    let Ok(turn) = turn else {
        counts.count("turn: ROOM");
        return;
    };
    let state = |held| match held {
        0 => "with nothing held",
        1..=5464 => "with a part of a line held",
        _ => "in a line that is too long",
    };
    counts.count(format!("turn: starts {}", state(held)));
    counts.count(format!("turn: ends {}", state(turn.held)));
    counts.count(match turn.taken == input.len() {
        true => "turn: all of the input is taken",
        false => "turn: the output is full",
    });
}
