//! The published cue, and sections of any kind made from the numbers of their field sheet.

use timpanimist::{section_of_sheet, text_to_section};

pub const TEXT_OF_004: &[u8] =
    b"/DA0AAAAAAAAAAAABQb+ADAQ6QAeAhxDVUVJQAAAO3/PAAEUrEoICAAAAAAg+2UBNAAANvrtoQ==";

#[allow(dead_code)] // not every test needs it
pub fn section_of_004() -> Vec<u8> {
    text_to_section(TEXT_OF_004).expect("a text")
}

/// A section of this splice_command_type: the numbers of its command, of so many bytes, and its descriptors.
#[allow(dead_code)] // not every test needs it
pub fn section(kind: u64, bytes: u64, command: &[u64], descriptors: &[Descriptor]) -> Vec<u8> {
    let mut sheet = vec![0xFC, 0, 0, 3, 0, 0, 0, 0, 0, 0xFFF, bytes, kind];
    sheet.extend(command);
    sheet.push(descriptors.iter().map(|one| one.bytes + 2).sum());
    for one in descriptors {
        sheet.extend([one.tag, one.bytes, 0x4355_4549]);
        sheet.extend(one.numbers);
    }
    section_of_sheet(&sheet).expect("a sheet")
}

/// A known descriptor: its tag, its descriptor_length, and the numbers behind its identifier.
pub struct Descriptor {
    pub tag: u64,
    pub bytes: u64,
    pub numbers: &'static [u64],
}
