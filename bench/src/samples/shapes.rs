//! Short sections and texts that are not timed, only compared: each command, each descriptor alone,
//! sealed sections, and some that are refused where few others are.

use super::build::{descriptors, kinds, known, schedule, section};

pub fn sections() -> Vec<Vec<u8>> {
    let mut sections = commands();
    sections.extend(kinds().iter().map(|kind| section(0x00, &[], kind, 2)));
    sections.push(section(0x07, &[], &kinds().concat(), 0));
    sections.extend(refused().iter().map(|wrong| section(0x00, &[], wrong, 0)));
    for bytes in [0, 3, 4, 5, 9] {
        let mut sealed = section(0xAA, &[0x55; 9][..bytes], &[], 0);
        sealed[4] |= 0x80;
        sections.push(sealed);
    }
    let stated = sections.clone();
    sections.extend(stated.into_iter().map(unstated));
    sections
}

/// Sections whose section_length is stated rightly and exceeds its limit.
pub fn too_long() -> [Vec<u8>; 2] {
    [4_097, 4_098].map(descriptors)
}

/// A section of every command, none with a descriptor.
fn commands() -> Vec<Vec<u8>> {
    let time = [0xFE, 0x00, 0x20, 0xF5, 0x80];
    let avails = [0, 0, 0, 0];
    let insert = |parts: &[&[u8]]| {
        let command = [&[&[0, 0, 1, 0xC0][..]], parts, &[&avails]]
            .concat()
            .concat();
        section(0x05, &command, &[], 0)
    };
    vec![
        section(0x00, &[], &[], 0),
        section(0x04, &[0], &[], 0),
        schedule(4),
        insert(&[&[0x7F, 0xDF]]),
        insert(&[&[0x7F, 0xEF], &time, &time]),
        insert(&[&[0x7F, 0xAF, 2, 7], &time, &[8, 0x7F], &time]),
        insert(&[&[0x7F, 0x9F, 2, 7, 8]]),
        section(0x05, &[0, 0, 1, 0xC0, 0xFF], &[], 0),
        section(0x06, &time, &[], 0),
        section(0x06, &[0x7F], &[], 0),
        section(0x07, &[], &[], 3),
        section(0xFF, b"ABC", &[], 0),
        section(0xFF, b"ABCD", &[], 0),
        section(0xFF, b"ABCD and more", &[], 0),
        section(0x20, &[1, 2, 3], &[], 0),
    ]
}

/// Descriptor loops that break their grammar by one byte.
fn refused() -> Vec<Vec<u8>> {
    let segment = [0, 0, 0, 1, 0x7F, 0xBF, 0, 0];
    vec![
        vec![0xF0],
        vec![0xF0, 3, 1, 2, 3, 0xF0, 4, 1, 2, 3, 4],
        known(2, &[&segment[..], &[0x34, 1, 2, 0]].concat()),
        known(2, &[&segment[..], &[0x46, 1, 2, 0, 0, 0]].concat()),
        known(2, &[&segment[..], &[0x47, 1, 2, 0, 0]].concat()),
    ]
}

/// The section with the splice_command_length that states nothing, its CRC left wrong.
fn unstated(mut section: Vec<u8>) -> Vec<u8> {
    section[11] |= 0x0F;
    section[12] = 0xFF;
    section
}

pub fn texts() -> Vec<Vec<u8>> {
    [
        "", "AAAA", "AAA=", "AA==", "A===", "====", "/+A=AAAA", "AAAAAAAA",
    ]
    .map(|text| text.as_bytes().to_vec())
    .into()
}
