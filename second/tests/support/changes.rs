//! Texts with one byte changed, and the texts that are changed so.

use super::texts::characters;
use super::{Bench, Random};
use second::text::{ALPHABET, LONGEST_TEXT};

/// The longest texts: without padding, with one `=` and with two.
pub fn longest_texts(random: &mut Random) -> [Vec<u8>; 3] {
    [0, 1, 2].map(|padding| padded_text(random, LONGEST_TEXT, padding))
}

/// A text of this many characters that ends in so many `=`, up to two. No spare bit is set.
pub fn padded_text(random: &mut Random, length: usize, padding: usize) -> Vec<u8> {
    let mut text = characters(random, length);
    let end = length.saturating_sub(padding);
    text[end..].fill(b'=');
    if let Some(last) = text[..end].last_mut() {
        // Each `=` leaves two bits spare.
        let spare = 1 << (2 * padding);
        *last = ALPHABET[spare * random.within(0..=64 / spare - 1)];
    }
    text
}

/// The most bytes that any text of this length gives.
pub fn most_bytes(text: &[u8]) -> usize {
    text.len() / 4 * 3
}

impl Bench {
    /// A text is read with the byte at this place changed to each of these, but for its own.
    pub fn changed_at(
        &mut self,
        text: &[u8],
        place: usize,
        bytes: impl IntoIterator<Item = u8>,
        room: usize,
    ) {
        let mut changed = text.to_vec();
        for byte in bytes.into_iter().filter(|byte| *byte != text[place]) {
            changed[place] = byte;
            // Says nothing by itself; what matters is that both programs say it.
            let _ = self.text_to_section(&changed, room);
        }
    }
}
