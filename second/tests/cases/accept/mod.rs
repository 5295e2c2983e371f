//! Which sections are accepted: built ones, and what becomes of them when they are damaged.
//! One test runs all the groups, so that it can say at its end how often each row was reached.

mod bytes;
mod cuts;
mod edges;
pub mod faults;
mod lengths;
mod lists;
mod published;
mod sections;

use crate::support::Bench;

/// How often each row, and acceptance, is reached at least.
const OFTEN: u64 = 500;

#[test]
fn sections_are_accepted_and_refused_alike() {
    let mut bench = Bench::new();
    published::samples(&mut bench);
    edges::all(&mut bench);
    faults::every_set(&mut bench);
    lists::all(&mut bench);
    sections::short(&mut bench);
    sections::long(&mut bench);
    sections::of_random_bytes(&mut bench);
    bytes::of_short_sections(&mut bench);
    bytes::of_long_sections(&mut bench);
    cuts::of_short_sections(&mut bench);
    cuts::of_long_sections(&mut bench);
    lengths::of_short_sections(&mut bench);
    lengths::of_long_sections(&mut bench);
    bench.tally.reached(0..=10, OFTEN);
}
