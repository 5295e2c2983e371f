//! House answers: the break, the DASH duration, the effective time, the first DVB check and the bill
//! label, of sections of every kind, good ones and damaged ones. Each question is put in rooms of every
//! kind (`support/house.rs`). One test runs all the groups, so that it can say at its end how often
//! each answer, and each refusal, was reached.

mod breaks;
mod labels;
mod longest;
mod mixed;
mod published;
mod refused;
mod sections;
mod times;

use crate::support::Bench;

/// How often each answer and each refusal of each question is reached at least.
const OFTEN: u64 = 100;

#[test]
fn house_answers_are_alike() {
    let mut bench = Bench::new();
    published::samples(&mut bench);
    sections::all(&mut bench);
    breaks::all(&mut bench);
    mixed::all(&mut bench);
    times::all(&mut bench);
    labels::all(&mut bench);
    longest::all(&mut bench);
    refused::every_row(&mut bench);
    bench.house_reached(OFTEN);
}
