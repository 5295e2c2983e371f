//! Every room from none to more than the longest answer has, for each answer of the sample day: of one
//! text, and of the end of a stream.

use crate::support::lines::Carry;
use crate::support::stream::LONGEST_LINE;
use crate::support::Bench;
use second::day;
use second::refusal::ROOM;

pub fn of_texts(bench: &mut Bench) {
    for line in day::lines() {
        let needed = line.answer.len() + 1;
        for room in 0..=24 {
            let answer = bench.line_in(line.text.as_bytes(), room);
            assert_eq!(answer == Err(ROOM), room < needed, "{}", line.what);
        }
    }
}

/// The same where the text is held at the end of a stream; of an empty one nothing is written.
pub fn of_ends(bench: &mut Bench) {
    for line in day::lines() {
        at_the_end(bench, &line);
    }
}

fn at_the_end(bench: &mut Bench, line: &day::Line) {
    let needed = match line.text.len() {
        0 => 0,
        _ => line.answer.len() + 1,
    };
    let mut carried = bench.random.bytes(LONGEST_LINE);
    carried[..line.text.len()].copy_from_slice(line.text.as_bytes());
    let mut carry = Carry::holding(&mut bench.random, &carried);
    for room in 0..=24 {
        let answer = bench.last_line_in(line.text.len() as u64, &mut carry, room);
        assert_eq!(answer == Err(ROOM), room < needed, "{}", line.what);
    }
}
