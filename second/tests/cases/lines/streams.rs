//! Streams cut in every way: short inputs into all the parts that there are, the sample day in two
//! parts at every place, long inputs at random; in every room from none up.

use crate::support::texts::{any_room, cut_at_random, cut_by_bits, input_of};
use crate::support::{Bench, Random};
use second::day;

/// Short inputs: lines of every sort of end, empty ones, no line end at all, nothing at all.
const SHORT: [&[u8]; 10] = [
    b"AAA\nAAAA\nAB",
    b"\n\n\n\n\n\n\n\n\n\n",
    b"AB==\nAAA\r\n\n",
    b"\nAAAA\n\nA",
    b"AAAAAAAAAA",
    b"A=AA\nAB==\n",
    b"\r\nAA\xFFA\nA\n",
    b"AAAA",
    b"\n",
    b"",
];

pub fn all(bench: &mut Bench) {
    every_cut_of_short_inputs(bench);
    the_sample_day_in_two_parts(bench);
    the_sample_day_in_equal_parts(bench);
    random_cuts_of_long_inputs(bench);
}

fn always(room: usize) -> impl Fn(&mut Random) -> usize {
    move |_| room
}

fn every_cut_of_short_inputs(bench: &mut Bench) {
    for input in SHORT {
        let places = input.len().saturating_sub(1);
        for cuts in 0..1 << places {
            let parts = cut_by_bits(input, cuts);
            assert_eq!(parts.concat(), input);
            for room in (0..=30).chain([40, 45, 46, 1_000]) {
                bench.stream(&parts, always(room));
            }
        }
    }
}

fn the_sample_day_in_two_parts(bench: &mut Bench) {
    let input = day::file().into_bytes();
    for at in 0..=input.len() {
        let (first, second) = input.split_at(at);
        let room = bench.random.within(0..=50);
        bench.stream(&[first, second], always(room));
        bench.stream(&[first, second], any_room);
    }
}

fn the_sample_day_in_equal_parts(bench: &mut Bench) {
    let input = day::file().into_bytes();
    for length in 1..=200 {
        let parts: Vec<&[u8]> = input.chunks(length).collect();
        bench.stream(&parts, any_room);
    }
    for room in 0..=500 {
        bench.stream(&[&input], always(room));
    }
}

fn random_cuts_of_long_inputs(bench: &mut Bench) {
    for longest in [20, 100, 500, 2_000, 20_000, 100_000] {
        for _ in 0..20 {
            let count = bench.random.within(0..=400);
            let input = input_of(&mut bench.random, count);
            let parts = cut_at_random(&mut bench.random, &input, longest);
            bench.stream(&parts, any_room);
        }
    }
}
