//! A text with some harm done to it: a character changed, two swapped, or its end cut off.

use super::random::Random;
use second::text::ALPHABET;

/// Does some harm to a text, in one place.
pub fn damage(random: &mut Random, text: &mut Vec<u8>) {
    if text.is_empty() {
        text.push(character(random));
        return;
    }
    let at = place(random, text.len());
    match random.within(0..=7) {
        0..=3 => text[at] = character(random),
        4 | 5 => {
            let other = place(random, text.len());
            text.swap(at, other);
        }
        6 => text.truncate(at),
        _ => text.truncate(at / 4 * 4),
    }
}

/// A character that does harm: any byte, one near the alphabet, a `=`, or another good one.
fn character(random: &mut Random) -> u8 {
    match random.within(0..=3) {
        0 => random.number() as u8,
        1 => random.one_of(b"= -_\r\n.:@[`{"),
        2 => b'=',
        _ => random.one_of(ALPHABET),
    }
}

/// A place, the last four as likely as all the others together.
fn place(random: &mut Random, length: usize) -> usize {
    if random.within(0..=1) == 0 {
        random.within(length.saturating_sub(4)..=length - 1)
    } else {
        random.within(0..=length - 1)
    }
}
