//! Random texts: good ones damaged in a few places, and bytes that never were a text.

use crate::support::{damage, Bench, Random};
use second::text::{section_to_text, ALPHABET};

/// Good base64 of some random bytes.
fn good_text(random: &mut Random, most_bytes: usize) -> Vec<u8> {
    let count = random.within(0..=most_bytes);
    let bytes = random.bytes(count);
    section_to_text(&bytes, usize::MAX).unwrap()
}

fn room(random: &mut Random, text: &[u8]) -> usize {
    let most = text.len() / 4 * 3;
    match random.within(0..=4) {
        0 => random.within(0..=most),
        1 => random.within(most.saturating_sub(3)..=most),
        _ => most + random.within(0..=8),
    }
}

#[test]
fn damaged_texts() {
    let mut bench = Bench::new();
    for _ in 0..500_000 {
        let mut text = good_text(&mut bench.random, 90);
        for _ in 0..bench.random.within(1..=3) {
            damage(&mut bench.random, &mut text);
        }
        let room = room(&mut bench.random, &text);
        let _ = bench.text_to_section(&text, room);
    }
}

#[test]
fn damaged_long_texts() {
    let mut bench = Bench::new();
    for _ in 0..4_000 {
        let mut text = good_text(&mut bench.random, 4096);
        for _ in 0..bench.random.within(1..=3) {
            damage(&mut bench.random, &mut text);
        }
        let room = room(&mut bench.random, &text);
        let _ = bench.text_to_section(&text, room);
    }
}

#[test]
fn random_bytes_as_text() {
    let mut bench = Bench::new();
    for _ in 0..400_000 {
        let length = bench.random.within(0..=40);
        let text = bench.random.bytes(length);
        let room = room(&mut bench.random, &text);
        let _ = bench.text_to_section(&text, room);
    }
}

#[test]
fn random_characters_as_text() {
    let mut bench = Bench::new();
    for _ in 0..600_000 {
        let length = 4 * bench.random.within(0..=6);
        let mut text: Vec<u8> = (0..length).map(|_| bench.random.one_of(ALPHABET)).collect();
        for padded in text.iter_mut().rev().take(bench.random.within(0..=3)) {
            *padded = b'=';
        }
        let room = room(&mut bench.random, &text);
        let _ = bench.text_to_section(&text, room);
    }
}
