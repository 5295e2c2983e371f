//! The model of the archive's line functions, by which the comparison judges them: facts of their
//! description, and that its streams are answered as line mode answers. No archive is needed.

#[allow(dead_code, unused_imports)]
#[path = "support/built/mod.rs"]
mod built;
#[path = "support/damage.rs"]
mod damage;
#[allow(dead_code)]
#[path = "support/random.rs"]
mod random;
#[allow(dead_code)]
#[path = "support/stream.rs"]
mod stream;
#[allow(dead_code)]
#[path = "support/texts.rs"]
mod texts;

use random::{seed, Random};
use second::lines::answers;
use second::refusal::ROOM;
use stream::{last_line, turn, LONGEST_ANSWER, LONGEST_LINE};
use texts::{any_room, cut_at_random, cut_by_bits, input_of};

/// What stands in the carry, the output and the numbers before a turn.
const UNTOUCHED: u8 = 0xEE;

struct Turned {
    /// Held, taken and written.
    numbers: [u64; 3],
    carry: Vec<u8>,
    out: Vec<u8>,
}

/// A turn with this text at the front of the carry, and so many characters of it held.
fn turned(held: u64, carried: &[u8], input: &[u8], room: usize) -> Turned {
    let mut carry = vec![UNTOUCHED; LONGEST_LINE];
    carry[..carried.len()].copy_from_slice(carried);
    let mut out = vec![UNTOUCHED; room];
    let mut numbers = [0; 3];
    turn(held, input, &mut carry, &mut out, &mut numbers).expect("a turn");
    Turned {
        numbers,
        carry,
        out,
    }
}

#[test]
fn lines_that_end_are_answered_and_the_rest_is_held() {
    let turned = turned(0, b"", b"AAA\n\nAAA", 100);
    assert_eq!(turned.numbers, [3, 8, 9]);
    assert_eq!(turned.out[..9], *b"R 12\nR 1\n");
    assert!(turned.out[9..].iter().all(|byte| *byte == UNTOUCHED));
    assert_eq!(turned.carry[..3], *b"AAA");
    assert!(turned.carry[3..].iter().all(|byte| *byte == UNTOUCHED));
}

#[test]
fn a_line_that_is_held_is_put_together_in_the_carry() {
    let turned = turned(2, b"AAzzz", b"=A\nA\n", 100);
    assert_eq!(turned.numbers, [0, 5, 10]);
    assert_eq!(turned.out[..10], *b"R 13\nR 12\n");
    assert_eq!(turned.carry[..5], *b"AA=Az");
}

/// The line is not taken, and neither is what stands behind it.
#[test]
fn a_line_is_taken_only_where_its_answer_has_room() {
    assert_eq!(turned(1, b"A", b"A\nA", 4).numbers, [1, 0, 0]);
    assert_eq!(turned(1, b"A", b"A\nA", 5).numbers, [1, 3, 5]);
    assert_eq!(turned(0, b"", b"A\nA\n", 9).numbers, [0, 2, 5]);
    assert_eq!(turned(0, b"", b"A\nA\n", 10).numbers, [0, 4, 10]);
    assert_eq!(turned(0, b"", b"\n\n", 4).numbers, [0, 1, 4]);
    assert_eq!(turned(0, b"", b"A", 0).numbers, [1, 1, 0]);
}

/// What is held stays, but the line was put together behind it.
#[test]
fn a_line_is_put_together_also_where_its_answer_has_no_room() {
    let stopped = turned(1, b"Azz", b"B\nC", 4);
    assert_eq!(stopped.numbers, [1, 0, 0]);
    assert_eq!(stopped.carry[..3], *b"ABz");
    let stopped = turned(0, b"zzz", b"B\nC", 4);
    assert_eq!(stopped.carry[..3], *b"zzz");
}

#[test]
fn a_line_can_be_too_long() {
    let line = vec![b'A'; LONGEST_LINE];
    assert_eq!(turned(0, b"", &line, 0).numbers, [5464, 5464, 0]);
    assert_eq!(turned(1, b"A", &line, 0).numbers, [5465, 5464, 0]);
    assert_eq!(turned(1, b"A", &line[1..], 0).numbers, [5464, 5463, 0]);
    for held in [5465, 5466, u64::MAX] {
        assert_eq!(turned(held, b"", b"", 0).numbers, [5465, 0, 0]);
        assert_eq!(turned(held, b"", b"\n", 4).numbers, [5465, 0, 0]);
        let ended = turned(held, b"", b"\nA\n", 100);
        assert_eq!(ended.numbers, [0, 3, 10]);
        assert_eq!(ended.out[..10], *b"R 12\nR 12\n");
        assert!(ended.carry.iter().all(|byte| *byte == UNTOUCHED));
    }
}

#[test]
fn too_little_is_lent() {
    let refused = |carry: usize, numbers: usize| {
        let (mut carry, mut out) = (vec![UNTOUCHED; carry], [UNTOUCHED; 100]);
        let mut numbers = vec![7; numbers];
        let answer = turn(0, b"A\nA", &mut carry, &mut out, &mut numbers);
        let untouched = carry.iter().chain(&out).all(|byte| *byte == UNTOUCHED);
        assert_eq!(
            untouched && numbers.iter().all(|n| *n == 7),
            answer.is_err()
        );
        answer
    };
    assert_eq!(refused(LONGEST_LINE - 1, 3), Err(ROOM));
    assert_eq!(refused(LONGEST_LINE, 2), Err(ROOM));
    assert_eq!(refused(LONGEST_LINE, 3), Ok(()));
    assert_eq!(last_line(0, &[0; LONGEST_LINE - 1]), Err(ROOM));
}

#[test]
fn the_end_of_a_stream() {
    let mut carry = vec![UNTOUCHED; LONGEST_LINE];
    carry[..4].copy_from_slice(b"AAAA");
    let line = |held| last_line(held, &carry).expect("a carry that is long enough");
    assert_eq!(line(0), b"");
    assert_eq!(line(1), b"R 12\n");
    assert_eq!(line(4), b"R 1\n");
    assert_eq!(line(5464), b"R 13\n");
    assert_eq!(line(5465), b"R 12\n");
    assert_eq!(line(u64::MAX), b"R 12\n");
}

/// All answers of a stream that comes in these parts.
fn streamed(parts: &[&[u8]], mut room: impl FnMut() -> usize) -> String {
    let mut carry = vec![UNTOUCHED; LONGEST_LINE];
    let mut numbers = [0; 3];
    let mut written = Vec::new();
    for part in parts {
        let mut rest = *part;
        let mut out = vec![UNTOUCHED; room()];
        loop {
            turn(numbers[0], rest, &mut carry, &mut out, &mut numbers).expect("a turn");
            written.extend(&out[..numbers[2] as usize]);
            rest = &rest[numbers[1] as usize..];
            if rest.is_empty() {
                break;
            }
            out = vec![UNTOUCHED; room().max(LONGEST_ANSWER)];
        }
    }
    written.extend(last_line(numbers[0], &carry).expect("the end of the stream"));
    String::from_utf8(written).expect("plain text")
}

#[test]
fn streams_are_answered_as_line_mode_answers() {
    println!("seed {:#018x}", seed());
    let random = &mut Random::new(seed());
    for input in [&b"AAA\nAAAA\nAB"[..], b"AB==\nAAA\r\n\n", b"\n\n\n\n\n\n"] {
        for cuts in 0..1 << (input.len() - 1) {
            let parts = cut_by_bits(input, cuts);
            assert_eq!(streamed(&parts, || any_room(random)), answers(input));
        }
    }
    for _ in 0..200 {
        let count = random.within(0..=100);
        let input = input_of(random, count);
        let parts = cut_at_random(random, &input, 8_000);
        assert_eq!(streamed(&parts, || any_room(random)), answers(&input));
    }
}
