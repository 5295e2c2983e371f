//! Base64 text (RFC 4648 section 4) to section and back, by way of a list of single bits.

use crate::refusal::{ROOM, SIZE, TEXTBITS, TEXTCHAR, TEXTLEN};

/// Each character of the alphabet stands at the place of its value.
pub const ALPHABET: &[u8; 64] = b"ABCDEFGHIJKLMNOPQRSTUVWXYZabcdefghijklmnopqrstuvwxyz0123456789+/";

/// The longest text that is read.
pub const LONGEST_TEXT: usize = 5464;

/// The longest section that is put into text.
pub const LONGEST_SECTION: usize = 4096;

/// The bytes of a text, or the number of its refusal: TEXTLEN, TEXTCHAR, TEXTBITS, then ROOM.
pub fn text_to_section(text: &[u8], room: usize) -> Result<Vec<u8>, u8> {
    if !text.len().is_multiple_of(4) || text.len() > LONGEST_TEXT {
        return Err(TEXTLEN);
    }

    // Six bits from every character before the padding; a `=` among them is out of place.
    let mut bits: Vec<bool> = Vec::new();
    for character in before_the_padding(text) {
        match ALPHABET.iter().position(|known| known == character) {
            Some(value) => push_bits(&mut bits, value, 6),
            None => return Err(TEXTCHAR),
        }
    }

    // Whole bytes first; what is left over is spare and must be zero.
    let bytes = bits.chunks_exact(8);
    if bytes.remainder().contains(&true) {
        return Err(TEXTBITS);
    }
    let section: Vec<u8> = bytes.map(|eight| number(eight) as u8).collect();

    if section.len() > room {
        return Err(ROOM);
    }
    Ok(section)
}

/// The text of a section, or the number of its refusal: SIZE, then ROOM.
pub fn section_to_text(section: &[u8], room: usize) -> Result<Vec<u8>, u8> {
    if section.len() > LONGEST_SECTION {
        return Err(SIZE);
    }

    // Eight bits from every byte, and zeros until they come out in sixes.
    let mut bits: Vec<bool> = Vec::new();
    for byte in section {
        push_bits(&mut bits, usize::from(*byte), 8);
    }
    while !bits.len().is_multiple_of(6) {
        bits.push(false);
    }

    // A character for every six, and padding until they come out in fours.
    let mut text: Vec<u8> = bits.chunks(6).map(|six| ALPHABET[number(six)]).collect();
    while !text.len().is_multiple_of(4) {
        text.push(b'=');
    }

    if text.len() > room {
        return Err(ROOM);
    }
    Ok(text)
}

/// The text without the one or two `=` that may stand at its end.
fn before_the_padding(text: &[u8]) -> &[u8] {
    match text {
        [before @ .., b'=', b'='] => before,
        [before @ .., b'='] => before,
        _ => text,
    }
}

/// Adds the lowest `count` bits of a value to the list, most significant first.
fn push_bits(bits: &mut Vec<bool>, value: usize, count: usize) {
    for place in (0..count).rev() {
        bits.push(value >> place & 1 == 1);
    }
}

/// The number that a few bits make, most significant first.
fn number(bits: &[bool]) -> usize {
    bits.iter()
        .fold(0, |number, bit| 2 * number + usize::from(*bit))
}

#[cfg(test)]
mod tests;
