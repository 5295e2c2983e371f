//! Texts at the edges of the rules: padding, spare bits, lengths, rooms, bad characters.

use crate::support::Bench;
use second::refusal::{ROOM, TEXTCHAR, TEXTLEN};
use second::text::ALPHABET;

const BAD: &[u8] = b"= -_\r\n.,:@[`{\0\x7f\x80\xff";

/// A good text of this many characters, the last `padding` of them `=`.
fn good_text(bench: &mut Bench, length: usize, padding: usize) -> Vec<u8> {
    let mut text: Vec<u8> = (0..length).map(|_| bench.random.one_of(ALPHABET)).collect();
    if padding > 0 {
        text[length - padding..].fill(b'=');
        // `A`, `Q`, `g` and `w` end in four zero bits.
        text[length - padding - 1] = bench.random.one_of(b"AQgw");
    }
    text
}

/// A room at random: none, short, exact or wide.
fn some_room(bench: &mut Bench, text: &[u8]) -> usize {
    let most = text.len() / 4 * 3 + 2;
    bench.random.within(0..=most)
}

#[test]
fn every_text_of_four_from_a_small_set_in_every_room() {
    let mut bench = Bench::new();
    let set = b"=ABEQ+/ \r\0\xff\x80-_";
    for first in set {
        for second in set {
            for third in set {
                for fourth in set {
                    for room in 0..=5 {
                        let _ = bench.text_to_section(&[*first, *second, *third, *fourth], room);
                    }
                }
            }
        }
    }
}

#[test]
fn every_pair_of_bytes_at_the_end_and_in_the_middle() {
    let mut bench = Bench::new();
    for a in 0..=255 {
        for b in 0..=255 {
            let _ = bench.text_to_section(&[b'Z', b'g', a, b], 3);
            let _ = bench.text_to_section(&[b'Z', a, b, b'='], 3);
            let _ = bench.text_to_section(&[a, b, b'=', b'='], 3);
            let _ = bench.text_to_section(&[b'Z', b'm', a, b, b'Z', b'g', b'=', b'='], 5);
        }
    }
}

#[test]
fn every_short_length_in_every_room() {
    let mut bench = Bench::new();
    for length in 0..=20 {
        for padding in 0..=3.min(length) {
            let mut text = good_text(&mut bench, length, 0);
            text[length - padding..].fill(b'=');
            for room in 0..=length + 2 {
                let answer = bench.text_to_section(&text, room);
                let counted = length % 4 == 0;
                assert_eq!(answer == Err(TEXTLEN), !counted);
            }
        }
        for filled in [b'=', b'A', b'/', 0x00, 0xFF] {
            for room in 0..=length + 2 {
                let _ = bench.text_to_section(&vec![filled; length], room);
            }
        }
    }
    assert_eq!(bench.text_to_section(b"", 0), Ok(vec![]));
}

#[test]
fn every_room_around_what_is_needed() {
    let mut bench = Bench::new();
    for length in (0..=80).step_by(4) {
        for padding in 0..=2.min(length) {
            let text = good_text(&mut bench, length, padding);
            let needed = length / 4 * 3 - padding;
            for room in 0..=needed + 2 {
                let answer = bench.text_to_section(&text, room);
                assert_eq!(answer == Err(ROOM), room < needed);
            }
        }
    }
}

#[test]
fn the_longest_texts() {
    let mut bench = Bench::new();
    for length in [5456, 5460, 5461, 5463, 5464, 5465, 5468, 5472, 10_928] {
        for padding in 0..=2 {
            let text = good_text(&mut bench, length, padding);
            let needed = length / 4 * 3 - padding;
            for room in [0, 1, needed - 1, needed, needed + 1, 6000] {
                let _ = bench.text_to_section(&text, room);
            }
        }
    }
    let text = good_text(&mut bench, 5464, 0);
    assert_eq!(bench.text_to_section(&text, 4098).unwrap().len(), 4098);
    assert_eq!(bench.text_to_section(&text, 4097), Err(ROOM));
    let text = good_text(&mut bench, 5468, 0);
    assert_eq!(bench.text_to_section(&text, 6000), Err(TEXTLEN));
}

#[test]
fn a_bad_character_at_every_place() {
    let mut bench = Bench::new();
    for length in (4..=24).step_by(4) {
        for padding in 0..=2 {
            let text = good_text(&mut bench, length, padding);
            for place in 0..length {
                for bad in BAD {
                    let mut text = text.clone();
                    text[place] = *bad;
                    let room = some_room(&mut bench, &text);
                    let _ = bench.text_to_section(&text, room);
                }
            }
        }
    }
}

#[test]
fn a_bad_character_at_every_place_of_the_longest_text() {
    let mut bench = Bench::new();
    let text = good_text(&mut bench, 5464, 2);
    for place in 0..5462 {
        let mut text = text.clone();
        text[place] = bench.random.one_of(BAD);
        let answer = bench.text_to_section(&text, 4098);
        assert_eq!(answer, Err(TEXTCHAR), "place {place}");
    }
}

#[test]
fn a_bad_character_counts_before_spare_bits() {
    let mut bench = Bench::new();
    for length in (4..=16).step_by(4) {
        for padding in 1..=2 {
            for spare in b"BCEIPXfn/" {
                let mut text = good_text(&mut bench, length, padding);
                text[length - padding - 1] = *spare;
                for room in [0, length] {
                    let _ = bench.text_to_section(&text, room);
                }
                for place in 0..length - padding {
                    for bad in BAD {
                        let mut text = text.clone();
                        text[place] = *bad;
                        let answer = bench.text_to_section(&text, length);
                        // A `=` may have become padding.
                        assert!(*bad == b'=' || answer == Err(TEXTCHAR));
                    }
                }
            }
        }
    }
}

#[test]
fn every_character_before_the_padding() {
    let mut bench = Bench::new();
    for last in 0..=255 {
        for text in [[b'Z', last, b'=', b'='], [b'Z', b'm', last, b'=']] {
            for room in 0..=3 {
                let _ = bench.text_to_section(&text, room);
            }
            let longer = [b"Zm9v".as_slice(), &text].concat();
            let _ = bench.text_to_section(&longer, 6);
        }
    }
}
