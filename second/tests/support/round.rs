//! One round of the long comparison: random cues and texts, streams of them, cuts and strange turns.

use super::lines::{Asked, Carry};
use super::programs::{proved, run, second};
use super::random::start_round;
use super::same_lines::same_lines;
use super::texts::{
    any_line, any_room, cut_at_random, cut_by_bits, damaged_text, good_text, input_of, long_line,
    text_of_damaged_section, REPLACEMENTS,
};
use super::Bench;

/// Room for every answer.
const PLENTY: usize = 40;

/// What rounds did.
#[derive(Default)]
pub struct Done {
    cues: u64,
    asked: Asked,
    files: u64,
}

impl Done {
    pub fn add(&mut self, other: &Done) {
        self.cues += other.cues;
        self.files += other.files;
        self.asked.texts += other.asked.texts;
        self.asked.turns += other.asked.turns;
        self.asked.streams += other.asked.streams;
        self.asked.lines += other.asked.lines;
    }

    pub fn told(&self) -> String {
        let Asked {
            texts,
            turns,
            streams,
            lines,
        } = self.asked;
        let (cues, files) = (self.cues, self.files);
        format!(
            "{cues} cues; {texts} questions about a text; {turns} turns over {streams} streams of \
             {lines} lines; {files} files through both programs"
        )
    }
}

/// A round of so many cues; where it is said, all its lines go through both programs as a file.
pub fn round(seed: u64, cues: u64, file: bool) -> Done {
    start_round(seed);
    let mut bench = Bench::silent();
    let input = texts(&mut bench, cues);
    every_place(&mut bench);
    streams(&mut bench, &input);
    every_cut(&mut bench);
    long_lines(&mut bench);
    strange_turns(&mut bench);
    if file {
        through_both_programs(&input);
    }
    let (asked, files) = (bench.asked, u64::from(file));
    Done { cues, asked, files }
}

/// Each cue, and for each some texts that are damaged; all of them as one input.
fn texts(bench: &mut Bench, cues: u64) -> Vec<u8> {
    let mut input = Vec::new();
    for _ in 0..cues {
        let cue = good_text(&mut bench.random);
        bench.line(&cue);
        input.extend([&cue[..], b"\n"].concat());
        for make in [
            text_of_damaged_section,
            damaged_text,
            damaged_text,
            any_line,
        ] {
            let text = make(&mut bench.random);
            let room = bench.random.one_of(&[PLENTY, PLENTY, PLENTY, 23, 9, 5, 4]);
            let _ = bench.line_in(&text, room);
            input.extend([&text[..], b"\n"].concat());
        }
    }
    input
}

/// One cue, with each of its characters replaced in many ways.
fn every_place(bench: &mut Bench) {
    let text = good_text(&mut bench.random);
    for at in 0..text.len().min(400) {
        for replacement in REPLACEMENTS {
            let mut text = text.clone();
            text[at] = replacement;
            let _ = bench.line_in(&text, PLENTY);
        }
    }
}

fn streams(bench: &mut Bench, input: &[u8]) {
    let longest = bench.random.one_of(&[60, 500, 5_000, 50_000]);
    let parts = cut_at_random(&mut bench.random, input, longest);
    bench.stream(&parts, any_room);
    let pieces: Vec<&[u8]> = input.chunks(65_536).collect();
    bench.stream(&pieces, |_| 65_536);
}

/// A short input in all the parts that there are, and some lines in two parts at every place.
fn every_cut(bench: &mut Bench) {
    let length = bench.random.within(1..=9);
    let characters = (0..length).map(|_| bench.random.one_of(b"AAAA\n\n=\r"));
    let input: Vec<u8> = characters.collect();
    for cuts in 0..1 << (length - 1) {
        let room = bench.random.within(0..=60);
        bench.stream(&cut_by_bits(&input, cuts), |_| room);
    }
    let input = input_of(&mut bench.random, 3);
    for at in 0..=input.len().min(400) {
        let (first, second) = input.split_at(at);
        bench.stream(&[first, second], any_room);
    }
}

/// Lines at the edge of what is too long, cut at random.
fn long_lines(bench: &mut Bench) {
    let lines: Vec<Vec<u8>> = (0..4).map(|_| long_line(&mut bench.random)).collect();
    let input = lines.join(&b'\n');
    let longest = bench.random.one_of(&[700, 3_000, 6_000, 70_000]);
    let parts = cut_at_random(&mut bench.random, &input, longest);
    bench.stream(&parts, any_room);
}

/// Turns with any number held, and any bytes in the carry.
fn strange_turns(bench: &mut Bench) {
    for _ in 0..50 {
        let held = match bench.random.once_in(2) {
            true => bench.random.within(0..=5_470) as u64,
            false => bench.random.number_of_any_size(),
        };
        let length = bench.random.one_of(&[5_464, 5_464, 5_465, 5_463]);
        let numbers = bench.random.one_of(&[3, 3, 4, 2]);
        let count = bench.random.within(0..=3);
        let input = input_of(&mut bench.random, count);
        let room = any_room(&mut bench.random);
        let mut carry = Carry::new(&mut bench.random, length);
        let turn = bench.turn(held, &input, &mut carry, room, numbers);
        assert_eq!(turn.is_ok(), length >= 5_464 && numbers >= 3);
    }
}

/// Whether there is a proved program here; if there is, it answered as the second one did.
fn through_both_programs(input: &[u8]) {
    let (by_proved, by_second) = (run(proved(), input), run(second(), input));
    for output in [&by_proved, &by_second] {
        assert!(output.status.success() && output.stderr.is_empty());
    }
    same_lines("tally", input, &by_second.stdout, &by_proved.stdout);
}
