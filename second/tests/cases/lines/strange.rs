//! Turns that no stream would come to: strange numbers held, any bytes in the carry, a carry or a turn
//! that is too short, or longer than it need be.

use crate::support::lines::Carry;
use crate::support::texts::{any_line, any_room, input_of};
use crate::support::Bench;
use second::refusal::ROOM;

/// How many characters are said to be held.
const HELD: [u64; 18] = [
    0,
    1,
    2,
    4,
    76,
    5_463,
    5_464,
    5_465,
    5_466,
    5_467,
    10_928,
    1 << 31,
    1 << 32,
    (1 << 32) + 4,
    1 << 63,
    u64::MAX - 5_464,
    u64::MAX - 1,
    u64::MAX,
];

/// What fits into no turn, what just does, and more.
const CARRIES: [usize; 6] = [0, 1, 5_463, 5_464, 5_465, 8_000];
const NUMBERS: [usize; 6] = [0, 1, 2, 3, 4, 9];

pub fn all(bench: &mut Bench) {
    every_strange_turn(bench);
    every_strange_end(bench);
    random_turns(bench);
}

fn inputs() -> Vec<Vec<u8>> {
    let mut inputs: Vec<Vec<u8>> = ["", "A", "\n", "A\n", "\n\n", "AAA\nAAA", "AAAA\n\nAAAA\n"]
        .map(Vec::from)
        .to_vec();
    for length in [1, 4, 5_387, 5_388, 5_389, 5_463, 5_464, 5_465] {
        inputs.push(vec![b'A'; length]);
        inputs.push([&vec![b'A'; length][..], b"\nAA"].concat());
    }
    inputs
}

fn every_strange_turn(bench: &mut Bench) {
    for held in HELD {
        for input in inputs() {
            for (length, numbers) in shapes() {
                for room in [0, 3, 4, 5, 6, 9, 10, 14, 23, 100] {
                    let mut carry = any_carry(bench, length);
                    let turn = bench.turn(held, &input, &mut carry, room, numbers);
                    let fits = length >= 5_464 && numbers >= 3;
                    assert_eq!(turn.is_ok(), fits);
                }
            }
        }
    }
}

/// The lengths of a carry and of a turn, one of them as it should be.
fn shapes() -> Vec<(usize, usize)> {
    let carries = CARRIES.iter().map(|carry| (*carry, 3));
    let turns = NUMBERS.iter().map(|numbers| (5_464, *numbers));
    carries.chain(turns).chain([(0, 0), (5_463, 2)]).collect()
}

fn every_strange_end(bench: &mut Bench) {
    for held in HELD {
        for length in CARRIES {
            for room in (0..=24).chain([100]) {
                let mut carry = any_carry(bench, length);
                let answer = bench.last_line_in(held, &mut carry, room);
                assert!(length >= 5_464 || answer == Err(ROOM));
            }
        }
    }
}

/// A carry of random bytes, or with a text at its front, or with newlines in it, which are characters
/// like all others there.
fn any_carry(bench: &mut Bench, length: usize) -> Carry {
    let random = &mut bench.random;
    let mut bytes = match random.within(0..=3) {
        0 => random.bytes(length),
        1 => vec![b'\n'; length],
        2 => input_of(random, 3),
        _ => any_line(random),
    };
    bytes.resize(length, b'A');
    Carry::holding(random, &bytes)
}

fn random_turns(bench: &mut Bench) {
    for _ in 0..60_000 {
        let count = bench.random.within(0..=4);
        let input = input_of(&mut bench.random, count);
        let held = match bench.random.within(0..=3) {
            0 => 0,
            1 => bench.random.one_of(&HELD),
            2 => bench.random.within(0..=5_470) as u64,
            _ => bench.random.number_of_any_size(),
        };
        let length = 5_464 + bench.random.within(0..=3);
        let numbers = 3 + bench.random.within(0..=2);
        let room = any_room(&mut bench.random);
        let mut carry = any_carry(bench, length);
        let turn = bench.turn(held, &input, &mut carry, room, numbers);
        assert!(turn.is_ok());
    }
}
