//! Lines: the answer to a text, turns over a stream of lines, and the end of a stream. Two tests run
//! all the groups, so that each can say at its end how often everything was reached; what the model
//! of a turn says is checked against line mode itself by every stream.

mod files;
mod longest;
mod published;
mod rooms;
mod strange;
mod streams;
mod texts;

use crate::support::round::{round, Done};
use crate::support::Bench;

/// How often each answer, and each sort of turn, is reached at least.
const OFTEN: u64 = 500;

#[test]
fn lines_are_alike() {
    let mut bench = Bench::new();
    published::all(&mut bench);
    texts::all(&mut bench);
    rooms::of_texts(&mut bench);
    bench.texts_reached(OFTEN);
}

/// Some rounds of the long comparison, without the programs.
#[test]
fn rounds_of_the_long_comparison() {
    let mut bench = Bench::new();
    let mut done = Done::default();
    for _ in 0..20 {
        let seed = bench.random.number();
        done.add(&round(seed, 500, false));
    }
    println!("{}", done.told());
}

#[test]
fn streams_are_alike() {
    let mut bench = Bench::new();
    streams::all(&mut bench);
    longest::all(&mut bench);
    strange::all(&mut bench);
    rooms::of_ends(&mut bench);
    files::all(&mut bench);
    bench.turns_reached(OFTEN);
}
