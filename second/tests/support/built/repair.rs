//! A section that was changed, with its CRC, or its length and its CRC, put right again.

use second::crc::crc32;

/// The last four bytes made the CRC of those before them.
pub fn with_crc(section: &[u8]) -> Vec<u8> {
    let before = &section[..section.len() - 4];
    [before, &crc32(before).to_be_bytes()].concat()
}

/// section_length, as far as it can be told in 12 bits, and the CRC put right.
pub fn with_length_and_crc(section: &[u8]) -> Vec<u8> {
    with_crc(&with_length(section))
}

/// The first `count` bytes, the last four of them given to the CRC, all put right.
pub fn cut(section: &[u8], count: usize) -> Vec<u8> {
    with_length_and_crc(&section[..count])
}

/// The section with more bytes before its CRC, all put right.
pub fn grown(section: &[u8], more: &[u8]) -> Vec<u8> {
    let before = &section[..section.len() - 4];
    with_length_and_crc(&[before, more, &[0; 4]].concat())
}

fn with_length(section: &[u8]) -> Vec<u8> {
    let mut section = section.to_vec();
    let section_length = section.len() - 3;
    section[1] = section[1] & 0xF0 | (section_length >> 8 & 0x0F) as u8;
    section[2] = section_length as u8;
    section
}
