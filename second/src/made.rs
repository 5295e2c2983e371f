//! Sections made by hand, for the sample day and for tests: their length and CRC are put right.

use crate::crc::crc32;
use crate::hex::from_hex;

/// The bytes with section_length and CRC_32 put right; room for the CRC is not among them.
pub fn finished(mut bytes: Vec<u8>) -> Vec<u8> {
    let section_length = (bytes.len() + 4 - 3) as u16;
    bytes[1] = bytes[1] & 0xF0 | (section_length >> 8) as u8;
    bytes[2] = section_length as u8;
    bytes.extend(crc32(&bytes).to_be_bytes());
    bytes
}

/// A section with this splice_command_length, and from splice_command_type on these bytes (hex).
pub fn section(splice_command_length: u16, inside: &str) -> Vec<u8> {
    let [high, low] = splice_command_length.to_be_bytes();
    let mut bytes = vec![0xFC, 0x30, 0, 0, 0, 0, 0, 0, 0, 0, 0, high, low];
    let inside = inside.replace(' ', "");
    bytes.extend(from_hex(&inside).unwrap_or_else(|| panic!("not hex bytes: {inside}")));
    finished(bytes)
}

/// A section, its CRC left out, with this byte changed, and its length and its CRC put right.
pub fn with_byte(section: &[u8], at: usize, byte: u8) -> Vec<u8> {
    let mut bytes = section[..section.len() - 4].to_vec();
    bytes[at] = byte;
    finished(bytes)
}
