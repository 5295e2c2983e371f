//! However an input is cut into pieces, its answers are the same.

use super::kinds::every_kind;
use super::*;

/// The input in pieces: a cut stands before byte n + 1 where bit n of this number is 1.
fn cut(input: &[u8], cuts: u32) -> Vec<&[u8]> {
    let places = 0..input.len() - 1;
    let mut ends: Vec<usize> = places.filter(|place| cuts >> place & 1 == 1).collect();
    ends.push(input.len() - 1);
    let mut start = 0;
    let mut pieces = Vec::new();
    for end in ends {
        pieces.push(&input[start..=end]);
        start = end + 1;
    }
    pieces
}

#[test]
fn every_cut_of_short_inputs() {
    let inputs: [&[u8]; 8] = [
        b"AAA\nAAAA\nAB",
        b"\n\n\n\n\n\n\n\n\n\n\n",
        b"AB==\nAAA\r\n\n",
        b"\nAAAA\n\nA",
        b"AAAAAAAAAAA",
        b"A=AA\nAB==\n\n",
        b"\r\nAA\xFFA\nA\n",
        b"AAAA",
    ];
    for input in inputs {
        let expected = answers(input);
        for cuts in 0..1 << (input.len() - 1) {
            let pieces = cut(input, cuts);
            assert_eq!(pieces.len(), 1 + cuts.count_ones() as usize);
            assert_eq!(pieces.concat(), input);
            assert_eq!(tallied(&pieces), expected, "{pieces:?}");
        }
    }
}

#[test]
fn every_kind_of_line_in_two_pieces_and_in_equal_ones() {
    let texts: Vec<Vec<u8>> = every_kind().into_iter().map(|(text, _)| text).collect();
    let input = texts.join(&b'\n');
    let expected = answers(&input);
    for at in 1..input.len() {
        let (first, second) = input.split_at(at);
        assert_eq!(tallied(&[first, second]), expected, "{at}");
    }
    for length in 1..200 {
        let pieces: Vec<&[u8]> = input.chunks(length).collect();
        assert_eq!(tallied(&pieces), expected, "{length}");
    }
}

/// A line at the edge of what is too long, between two others, with the cuts near its ends.
#[test]
fn a_long_line_in_three_pieces() {
    for length in [5464, 5465] {
        let input = format!("AAA\n{}\n{TEXT_OF_004}\n", "A".repeat(length)).into_bytes();
        let expected = answers(&input);
        for first in 1..12 {
            for second in 5455..5480 {
                let (start, end) = input.split_at(second);
                let (start, middle) = start.split_at(first);
                assert_eq!(tallied(&[start, middle, end]), expected);
            }
        }
    }
}

/// More lines than one piece holds, of the shortest and of others.
#[test]
fn an_input_of_many_pieces() {
    let input = "\n".repeat(3 * PIECE + 1);
    let pieces: Vec<&[u8]> = input.as_bytes().chunks(PIECE).collect();
    assert_eq!(tallied(&pieces), "R 1\n".repeat(3 * PIECE + 1));
    let input = format!("{TEXT_OF_004}\n").repeat(2000);
    let pieces: Vec<&[u8]> = input.as_bytes().chunks(PIECE).collect();
    assert_eq!(tallied(&pieces), "A 201467\n".repeat(2000));
}
