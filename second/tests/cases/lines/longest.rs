//! Lines around the longest that is read and longer than the carry, with the cuts near their ends.

use crate::support::texts::{any_room, characters, text_of};
use crate::support::{built::longest_section, Bench};
use second::samples::TEXT_OF_004;

pub fn all(bench: &mut Bench) {
    three_parts(bench);
    many_parts(bench);
    the_longest_section(bench);
    far_longer(bench);
}

/// Two cuts, so that a line is held once, twice or not at all when it turns out to be too long.
fn three_parts(bench: &mut Bench) {
    for length in [5_463, 5_464, 5_465, 5_468] {
        let line = characters(&mut bench.random, length);
        let input = [b"AAA\n", &line[..], b"\n", TEXT_OF_004.as_bytes(), b"\n"].concat();
        for first in [0, 1, 3, 4, 5, 8, 2_000] {
            for second in 5_460..=5_475 {
                let (start, end) = input.split_at(second);
                let (start, middle) = start.split_at(first);
                bench.stream(&[start, middle, end], any_room);
            }
        }
        without_a_newline(bench, &line);
    }
}

/// The end of the stream ends the line, cut in two near its end.
fn without_a_newline(bench: &mut Bench, line: &[u8]) {
    for at in [0, 1, 2_000, line.len() - 2, line.len() - 1, line.len()] {
        let (first, second) = line.split_at(at);
        bench.stream(&[first, second], any_room);
        bench.stream(&[first, b"", second, b""], any_room);
        bench.stream(&[first, second, b"\n"], any_room);
    }
}

/// Parts of equal length, so that the line grows in the carry until it is full.
fn many_parts(bench: &mut Bench) {
    for length in [5_463, 5_464, 5_465, 5_466, 12_000] {
        let line = characters(&mut bench.random, length);
        let input = [&line[..], b"\n\n", &line, b"\nAAA"].concat();
        for part in [7, 64, 683, 1_366, 2_732, 5_463, 5_464, 5_465, 5_466] {
            let parts: Vec<&[u8]> = input.chunks(part).collect();
            bench.stream(&parts, any_room);
        }
    }
}

/// A section of 4,096 bytes, its text of 5,464 characters cut in two at every place.
fn the_longest_section(bench: &mut Bench) {
    let text = text_of(&longest_section(&mut bench.random).bytes);
    assert_eq!(text.len(), 5_464);
    for at in (0..=text.len()).step_by(13) {
        let (first, second) = text.split_at(at);
        bench.stream(&[first, second], any_room);
    }
}

/// Lines that are longer than the carry many times over.
fn far_longer(bench: &mut Bench) {
    for length in [20_000, 65_536, 1_000_000] {
        let line = characters(&mut bench.random, length);
        let input = [&line[..], b"\n", TEXT_OF_004.as_bytes()].concat();
        for part in [5_465, 10_000, 65_536, 2_000_000] {
            let parts: Vec<&[u8]> = input.chunks(part).collect();
            bench.stream(&parts, any_room);
        }
    }
}
