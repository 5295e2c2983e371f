//! Typed readings: the command, the known descriptors and the lists inside them, of sections of
//! every kind, good ones and damaged ones. Each question is put in rooms of every kind
//! (`support/readings.rs`). Two tests run all the groups, so that one can say at its end how often
//! each case of each answer was reached, and the other how often each refusal was.

mod commands;
mod descriptors;
mod longest;
mod published;
mod refused;
mod sections;

use crate::support::Bench;
use second::refusal::{NOTHERE, ROOM, SEALED, SHORT};

/// How often each case and each refusal of each question is reached at least.
const OFTEN: u64 = 100;

#[test]
fn readings_are_alike() {
    let mut bench = Bench::new();
    published::samples(&mut bench);
    sections::short(&mut bench);
    sections::long(&mut bench);
    sections::every_command_with_every_descriptor(&mut bench);
    sections::of_sealed_bytes(&mut bench);
    commands::all(&mut bench);
    descriptors::all(&mut bench);
    longest::all(&mut bench);
    bench.met.answers_reached(OFTEN);
    bench.met.refusals_reached(&[ROOM, NOTHERE, SEALED], OFTEN);
}

/// Many damaged sections are accepted all the same, but they were made from few: so nothing is said
/// of how often an answer is reached, only that it is one of those that there are.
#[test]
fn readings_of_damaged_sections_are_alike() {
    let mut bench = Bench::new();
    refused::every_row(&mut bench);
    let rows: Vec<u8> = (SHORT..=ROOM).chain([NOTHERE, SEALED]).collect();
    bench.met.answers_reached(0);
    bench.met.refusals_reached(&rows, OFTEN);
}
