//! Texts with one byte changed: short ones at each place to each other byte, the longest ones at each
//! place to a few. The long comparison changes the longest ones to each other byte too.

use crate::support::changes::{longest_texts, most_bytes, padded_text};
use crate::support::{Bench, Random};
use second::refusal::{ROOM, TEXTBITS, TEXTCHAR, TEXTLEN};
use second::text::ALPHABET;

/// How many short texts have each byte changed, half of them in whole groups of four characters.
const TEXTS: usize = 1_000;

/// The texts are made from this, and are the same in every run, so that the counts are; the lent
/// memory is that of the run's own seed.
const SEED: u64 = 0x7465_7874;

/// How often each answer is given at least.
const OFTEN: u64 = 5_000;

/// The same for those that only a change near the end can give.
const AT_THE_END: u64 = 10;

/// One text in so many is read in too little room too. All lengths and kinds are among these, since
/// it divides neither the 16 lengths nor the 5 kinds.
const TEXTS_OF_A_SMALL_ROOM: usize = 3;

/// What a text is before a byte of it is changed.
#[derive(Clone, Copy)]
enum Kind {
    /// With so many `=` at its end, and good if its length is.
    Padded(usize),
    /// With a `=` before its last character.
    Stray,
    /// With a spare bit set.
    SpareBits,
}

const KINDS: [Kind; 5] = [
    Kind::Padded(0),
    Kind::Padded(1),
    Kind::Padded(2),
    Kind::Stray,
    Kind::SpareBits,
];

/// Half of the texts, each of these lengths and each kind as often as the others.
fn texts(lengths: &[usize]) -> Vec<Vec<u8>> {
    let mut random = Random::new(SEED);
    let texts = (0..TEXTS / 2).map(|number| {
        let length = lengths[number % lengths.len()];
        let kind = KINDS[number / lengths.len() % KINDS.len()];
        text(&mut random, kind, length)
    });
    texts.collect()
}

fn text(random: &mut Random, kind: Kind, length: usize) -> Vec<u8> {
    let padding = match kind {
        Kind::Padded(padding) => padding,
        Kind::Stray => random.within(0..=2),
        Kind::SpareBits => random.within(1..=2),
    };
    let mut text = padded_text(random, length, padding);
    // A text that is nothing but padding stays as it is.
    let last = length.saturating_sub(padding + 1);
    match kind {
        Kind::Stray if last > 0 => text[random.within(0..=last - 1)] = b'=',
        // The two lowest bits are spare, with one `=` and with two.
        Kind::SpareBits if length > padding => {
            text[last] = ALPHABET[4 * random.within(0..=15) + random.within(1..=3)];
        }
        _ => {}
    }
    text
}

/// Texts in whole groups, of up to 60 characters.
fn counted_texts() -> Vec<Vec<u8>> {
    let lengths: Vec<usize> = (0..=60).step_by(4).collect();
    texts(&lengths)
}

/// Texts of all the lengths between these.
fn miscounted_texts() -> Vec<Vec<u8>> {
    let lengths: Vec<usize> = (0..=60).filter(|length| length % 4 != 0).collect();
    texts(&lengths)
}

/// One byte less than a text gives, or than it would give if nothing were wrong with it.
fn too_little(text: &[u8]) -> usize {
    let padding = text.iter().rev().take_while(|last| **last == b'=').count();
    most_bytes(text).saturating_sub(padding + 1)
}

/// The text as it is, and with each byte of it changed to each other byte.
fn every_change(bench: &mut Bench, text: &[u8], room: usize) {
    let _ = bench.text_to_section(text, room);
    for place in 0..text.len() {
        bench.changed_at(text, place, 0..=255, room);
    }
}

#[test]
fn every_change_of_counted_texts() {
    let mut bench = Bench::new();
    for text in counted_texts() {
        every_change(&mut bench, &text, most_bytes(&text));
    }
    bench.read.reached(0..=0, OFTEN);
    bench.read.reached(TEXTCHAR..=TEXTBITS, OFTEN);
}

/// Where a byte becomes padding, what is left may fit.
#[test]
fn every_change_of_counted_texts_in_too_little_room() {
    let mut bench = Bench::new();
    for text in counted_texts().iter().step_by(TEXTS_OF_A_SMALL_ROOM) {
        every_change(&mut bench, text, too_little(text));
    }
    bench.read.reached(0..=0, AT_THE_END);
    bench.read.reached(ROOM..=ROOM, OFTEN);
    bench.read.reached(TEXTCHAR..=TEXTBITS, OFTEN);
}

/// No change of a byte makes the length right.
#[test]
fn every_change_of_miscounted_texts() {
    let mut bench = Bench::new();
    for text in miscounted_texts() {
        every_change(&mut bench, &text, most_bytes(&text));
    }
    bench.read.reached(TEXTLEN..=TEXTLEN, OFTEN);
    assert_eq!(bench.read.of(TEXTLEN), bench.read.all());
}

/// Any other character of the alphabet.
fn another_good(random: &mut Random, own: u8) -> u8 {
    let others: Vec<u8> = ALPHABET.iter().copied().filter(|c| *c != own).collect();
    random.one_of(&others)
}

/// Each byte of a longest text is changed to a few others, one of the alphabet among them, and those
/// of its last group to each other, in too little room too.
fn some_changes_of_the_longest_text(padding: usize) {
    let mut bench = Bench::new();
    let text = &longest_texts(&mut Random::new(SEED))[padding];
    let (room, last_group) = (most_bytes(text), text.len() - 4);
    for place in 0..last_group {
        let good = another_good(&mut bench.random, text[place]);
        let bytes = [good, b'=', b'-', b'\n', 0, 127, 128, 255];
        bench.changed_at(text, place, bytes, room);
    }
    for place in last_group..text.len() {
        bench.changed_at(text, place, 0..=255, room);
        bench.changed_at(text, place, 0..=255, too_little(text));
    }
    bench.read.reached(0..=0, OFTEN);
    bench.read.reached(ROOM..=ROOM, AT_THE_END);
    bench.read.reached(TEXTCHAR..=TEXTCHAR, OFTEN);
    if padding > 0 {
        bench.read.reached(TEXTBITS..=TEXTBITS, AT_THE_END);
    }
}

#[test]
fn some_changes_of_the_longest_text_without_padding() {
    some_changes_of_the_longest_text(0);
}

#[test]
fn some_changes_of_the_longest_text_with_padding_of_one() {
    some_changes_of_the_longest_text(1);
}

#[test]
fn some_changes_of_the_longest_text_with_padding_of_two() {
    some_changes_of_the_longest_text(2);
}
