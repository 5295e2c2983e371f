//! The bench: each question is put to both programs, and their answers and the whole of the lent
//! memory must be equal; each method hands back the answer that they share.

use super::counts::Counts;
use super::lent::{Cell, Lent};
use super::lines::Asked;
use super::met::Met;
use super::random::{seed, Random};
use super::report::{pasted_text, same_answer, same_memory, AcceptAnswer, CountAnswer, CrcAnswer};
use super::tally::Tally;
use crate::proved;
use second::hex::to_hex;
use second::{bits, crc, section, text, units};

pub struct Bench {
    pub random: Random,
    /// How often each answer to the question of acceptance was given.
    pub tally: Tally,
    /// The same for texts that are read.
    pub read: Tally,
    /// The same for sections that are asked for their sheets.
    pub to_sheet: Tally,
    /// The same for sheets that are asked for their sections.
    pub to_section: Tally,
    /// How often each typed answer was given.
    pub met: Met,
    /// How often each house answer was given.
    pub house: Counts,
    /// How often each answer line was given, and each sort of turn over a stream.
    pub lines: Counts,
    /// How many texts, turns and streams were asked.
    pub asked: Asked,
}

impl Bench {
    /// A bench with the random numbers of this run's seed, which it prints.
    pub fn new() -> Bench {
        println!("seed {:#018x}", seed());
        Bench::silent()
    }

    /// The same, without a word.
    pub fn silent() -> Bench {
        Bench {
            random: Random::new(seed()),
            tally: Tally::default(),
            read: Tally::default(),
            to_sheet: Tally::default(),
            to_section: Tally::default(),
            met: Met::default(),
            house: Counts::default(),
            lines: Counts::default(),
            asked: Asked::default(),
        }
    }

    /// Whether a section is accepted: 0, or the number of the row that refuses it.
    pub fn accept(&mut self, section: &[u8]) -> u8 {
        let before = Lent::holding(&mut self.random, section);
        let mut after = before.clone();
        let row = section::accept(section).err().unwrap_or(0);
        let second = AcceptAnswer(u32::from(row));
        let proved = AcceptAnswer(proved::accept(after.part()));
        let paste = || format!("second accept '{}'", to_hex(section));
        same_answer("accept", &second, &proved, paste);
        same_memory("accept", second, "section", &before, &after, paste);
        self.tally.count(row);
        row
    }

    /// A text is read into `room` bytes.
    pub fn text_to_section(&mut self, text: &[u8], room: usize) -> Result<Vec<u8>, u8> {
        let answer = text::text_to_section(text, room);
        let call = proved::text_to_section;
        let paste = || pasted_text(text, room);
        self.same_written("text_to_section", text, room, &answer, call, paste);
        self.read.count(*answer.as_ref().err().unwrap_or(&0));
        answer
    }

    /// A section is written as text into `room` bytes.
    pub fn section_to_text(&mut self, section: &[u8], room: usize) -> Result<Vec<u8>, u8> {
        let answer = text::section_to_text(section, room);
        let call = proved::section_to_text;
        let paste = || format!("second to-text '{}' {room}", to_hex(section));
        self.same_written("section_to_text", section, room, &answer, call, paste);
        answer
    }

    /// The proved function gives the answer of the second program, writes it at the front of the
    /// lent output and leaves everything else as it was.
    pub(super) fn same_written<I: Cell, O: Cell>(
        &mut self,
        function: &str,
        input: &[I],
        room: usize,
        answer: &Result<Vec<O>, u8>,
        mut proved: impl FnMut(&mut [I], &mut [O]) -> u64,
        paste: impl Fn() -> String,
    ) {
        let before = Lent::holding(&mut self.random, input);
        let mut after = before.clone();
        let mut by_second = Lent::random(&mut self.random, room);
        let mut by_proved = by_second.clone();
        if let Ok(written) = answer {
            by_second.part()[..written.len()].copy_from_slice(written);
        }
        let second = CountAnswer::of(answer);
        let proved = CountAnswer(proved(after.part(), by_proved.part()));
        same_answer(function, &second, &proved, &paste);
        same_memory(function, second, "output", &by_second, &by_proved, &paste);
        same_memory(function, second, "input", &before, &after, &paste);
    }

    /// The CRC of the bytes.
    pub fn crc32(&mut self, bytes: &[u8]) -> u32 {
        let before = Lent::holding(&mut self.random, bytes);
        let mut after = before.clone();
        let second = CrcAnswer(crc::crc32(bytes));
        let proved = CrcAnswer(proved::crc32(after.part()));
        let paste = || format!("second crc '{}'", to_hex(bytes));
        same_answer("crc32", &second, &proved, paste);
        same_memory("crc32", second, "input", &before, &after, paste);
        second.0
    }

    /// Ticks as milliseconds.
    pub fn ticks_to_millis(&self, ticks: u64) -> u64 {
        let second = units::ticks_to_millis(ticks);
        let proved = proved::ticks_to_millis(ticks);
        let paste = || format!("second millis {ticks}");
        same_answer("ticks_to_millis", &second, &proved, paste);
        second
    }

    /// The sum of two clocks.
    pub fn clock_sum(&self, a: u64, b: u64) -> u64 {
        let second = units::clock_sum(a, b);
        let proved = proved::clock_sum(a, b);
        let paste = || format!("second clock {a} {b}");
        same_answer("clock_sum", &second, &proved, paste);
        second
    }

    /// The number in a field.
    pub fn field_read(&mut self, bytes: &[u8], at: usize, width: usize) -> u64 {
        let before = Lent::holding(&mut self.random, bytes);
        let mut after = before.clone();
        let second = bits::read_field(bytes, at, width);
        let proved = proved::field_read(after.part(), at, width);
        let paste = || format!("second field '{}' {at} {width}", to_hex(bytes));
        same_answer("field_read", &second, &proved, paste);
        same_memory("field_read", second, "input", &before, &after, paste);
        second
    }

    /// Whether a field is written.
    pub fn field_write(&mut self, bytes: &[u8], at: usize, width: usize, value: u64) -> bool {
        let mut by_second = Lent::holding(&mut self.random, bytes);
        let mut by_proved = by_second.clone();
        let second = bits::write_field(by_second.part(), at, width, value);
        let proved = proved::field_write(by_proved.part(), at, width, value);
        let paste = || format!("second set-field '{}' {at} {width} {value}", to_hex(bytes));
        same_answer("field_write", &second, &proved, paste);
        same_memory(
            "field_write",
            second,
            "bytes",
            &by_second,
            &by_proved,
            paste,
        );
        second
    }
}
