//! The edges that 01 names, each on both sides, with the row that each side must give.

mod commands;
mod descriptors;
mod frames;

use crate::support::Bench;

pub fn all(bench: &mut Bench) {
    for _ in 0..50 {
        frames::fewest_bytes(bench);
        frames::stated_sizes(bench);
        frames::indicators_and_version(bench);
        frames::sealed_sections(bench);
        commands::at_the_crc(bench);
        commands::open_lengths(bench);
        descriptors::loops_at_the_crc(bench);
        descriptors::lengths(bench);
        descriptors::known_bodies(bench);
    }
}

fn expect(bench: &mut Bench, section: &[u8], row: u8) {
    let answer = bench.accept(section);
    assert_eq!(
        answer,
        row,
        "second accept {}",
        second::hex::to_hex(section)
    );
}
