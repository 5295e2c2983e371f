//! The memory that a program takes does not grow with its input.

use super::files::files;
use super::programs::{ended, proved, second};
use super::{random, written};
use std::fs::read_to_string;
use std::io::{Read, Write};
use std::process::{Child, ChildStdin, ChildStdout, Command};
use std::sync::mpsc::{channel, Receiver, Sender};
use std::thread;
use std::time::Duration;

/// How far the most memory may lie above that of a small input, in kilobytes.
const SLACK: u64 = 256;

/// The small input is put again until so many rounds in a row have not raised the peak: a program that
/// asks for memory and gives it back comes to lie still only after some rounds.
const STILL: usize = 2;

/// So many rounds are enough for that.
const ROUNDS: usize = 40;

/// How long an answer may take.
const PATIENCE: Duration = Duration::from_secs(60);

/// The most memory that was in use since the start, in kilobytes.
fn peak(child: &Child) -> u64 {
    let status = read_to_string(format!("/proc/{}/status", child.id())).expect("it runs");
    let line = status.lines().find(|line| line.starts_with("VmHWM:"));
    let number = line.and_then(|line| line.split_whitespace().nth(1));
    number
        .and_then(|number| number.parse().ok())
        .expect("a peak")
}

/// A program whose input stays open, so that it is there to be looked at.
struct Fed {
    child: Child,
    to: ChildStdin,
    /// How many lines came, a number for each block that was read.
    told: Receiver<usize>,
}

impl Fed {
    fn new(mut program: Command) -> Fed {
        let mut child = program.spawn().expect("the program starts");
        let to = child.stdin.take().expect("a pipe");
        let from = child.stdout.take().expect("a pipe");
        let (tell, told) = channel();
        thread::spawn(move || count_lines(from, tell));
        Fed { child, to, told }
    }

    /// The peak after this input, which ends with a newline. A program writes the answers to a piece
    /// before it reads the next one, so all of them come while the input is open; only then is it known
    /// that the input was worked on.
    fn peak_after(&mut self, input: &[u8]) -> u64 {
        self.to.write_all(input).expect("the program reads on");
        let mut open = newlines(input);
        while open > 0 {
            let came = self.told.recv_timeout(PATIENCE).expect("more answers");
            open = open.checked_sub(came).expect("an answer for each line");
        }
        peak(&self.child)
    }

    /// The peak after as many rounds of this input as it takes until it lies still, if it comes to.
    fn settled_peak(&mut self, input: &[u8]) -> Option<u64> {
        let mut highest = 0;
        let mut still = 0;
        for _ in 0..ROUNDS {
            let now = self.peak_after(input);
            still = if now > highest { 0 } else { still + 1 };
            if still == STILL {
                return Some(now);
            }
            highest = now;
        }
        None
    }

    /// The input ends, and nothing more comes.
    fn end(self) {
        drop(self.to);
        assert!(written(ended(self.child)).is_empty());
        assert_eq!(self.told.iter().next(), None);
    }
}

fn count_lines(mut from: ChildStdout, tell: Sender<usize>) {
    let mut block = [0; 65_536];
    loop {
        let count = from.read(&mut block).expect("an output");
        if count == 0 || tell.send(newlines(&block[..count])).is_err() {
            return;
        }
    }
}

fn newlines(bytes: &[u8]) -> usize {
    bytes.iter().filter(|byte| **byte == b'\n').count()
}

/// Files of every sort, 60 MB in all, one line of 50 MB among them.
#[test]
fn a_large_input_takes_no_more_than_a_small_one() {
    let files = files(&mut random());
    let short = ["newlines alone", "random cues"];
    let small = files.iter().filter(|file| short.contains(&file.name));
    let small: Vec<u8> = small.flat_map(|file| file.input.clone()).collect();
    let mut large: Vec<u8> = files.iter().flat_map(|file| file.input.clone()).collect();
    // The last file has none.
    large.push(b'\n');
    assert!(large.len() > 10 * small.len());
    for (name, program) in [("proved", proved()), ("second", second())] {
        let mut program = Fed::new(program);
        let first = program.settled_peak(&small);
        let first = first.unwrap_or_else(|| panic!("{name}: it grows round after round"));
        let then = program.peak_after(&large);
        program.end();
        println!("{name}: {first} kB, then {then} kB");
        assert!(then <= first + SLACK, "{name}: {first} kB, then {then} kB");
    }
}
