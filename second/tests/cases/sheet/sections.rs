//! Built sections of every kind: each has its sheet, and comes back from it.

use super::{there, there_and_back};
use crate::support::built::{
    any_section, middling_section, sealed, section, section_with_length, Command, Descriptor,
    Segmentation, Size, Writer, SUB_SEGMENT_TYPES,
};
use crate::support::Bench;
use second::refusal::DESCRIPTOR;

/// A run covers 15,000 short sections.
#[test]
fn short() {
    let mut bench = Bench::new();
    for _ in 0..15_000 {
        let built = any_section(&mut bench.random, Size::Short);
        there_and_back(&mut bench, &built.bytes);
    }
}

/// A run covers 100 middling sections and 500 long ones.
#[test]
fn long() {
    let mut bench = Bench::new();
    for _ in 0..100 {
        let built = middling_section(&mut bench.random);
        there_and_back(&mut bench, &built.bytes);
    }
    for _ in 0..500 {
        let built = any_section(&mut bench.random, Size::Long);
        there_and_back(&mut bench, &built.bytes);
    }
}

/// Sealed sections with every number of bytes from the fewest on.
#[test]
fn of_sealed_bytes() {
    let mut bench = Bench::new();
    for count in 7..=300 {
        let built = sealed(&mut bench.random, count);
        let sheet = there_and_back(&mut bench, &built.bytes);
        assert_eq!(sheet.len(), 11 + count);
    }
}

/// Every command with every descriptor, with and without stuffing, its length written out and,
/// where it ends by itself, left open.
#[test]
fn every_command_with_every_descriptor() {
    let mut bench = Bench::new();
    for _ in 0..12 {
        for at in 0..7 {
            for command in Command::every(&mut bench.random, Size::Short) {
                for open in [false, true] {
                    if open && !command.ends_by_itself {
                        continue;
                    }
                    let random = &mut bench.random;
                    let descriptor = Descriptor::every(random, Size::Long)[at].clone();
                    let stuffing = random.within(0..=3);
                    let stuffing = random.bytes(stuffing);
                    let command = command.clone();
                    let list = vec![descriptor];
                    let built = section_with_length(random, command, open, list, &stuffing);
                    there_and_back(&mut bench, &built.bytes);
                }
            }
        }
    }
}

/// Every segmentation type with up to four bytes behind segments_expected.
#[test]
fn sub_segments() {
    let mut bench = Bench::new();
    for type_id in 0..=255 {
        for behind in 0..=4 {
            let random = &mut bench.random;
            let mut chosen = Segmentation::any(random, Size::Short);
            (chosen.cancelled, chosen.type_id, chosen.behind) = (false, type_id, behind);
            let descriptor = chosen.descriptor(random);
            let after = Descriptor::any(random, Size::Short);
            let built = section(random, Command::null(), vec![descriptor, after], &[]);
            let may = behind == 0 || behind == 2 && SUB_SEGMENT_TYPES.contains(&type_id);
            let row = there(&mut bench, &built.bytes);
            assert_eq!(row, if may { 0 } else { DESCRIPTOR });
        }
    }
}

/// Byte strings and lists of every length: UPIDs, DTMF characters, audio components, bodies of
/// unknown descriptors, the bytes of private and unknown commands.
#[test]
fn lists_of_every_length() {
    let mut bench = Bench::new();
    for count in 0..=251 {
        let random = &mut bench.random;
        let mut chosen = Segmentation::any(random, Size::Short);
        chosen.cancelled = false;
        chosen.upid = count.min(chosen.most_upid());
        let mut body = Writer::default();
        body.bytes(&random.bytes(count));
        let list = vec![
            chosen.descriptor(random),
            Descriptor::dtmf(random, count % 8),
            Descriptor::audio(random, count % 16),
            Descriptor::whole(count as u8, 0x4355_4548, body.clone()),
            Descriptor::whole(0xF0, 0x4355_4549, body),
        ];
        let mut part = Writer::default();
        part.bytes(&random.bytes(4 + count));
        let kind = random.one_of(&[0xFF, 0xFE, 0x08]);
        let ends_by_itself = false;
        let command = Command {
            kind,
            part,
            ends_by_itself,
        };
        let built = section(random, command, list, &[]);
        there_and_back(&mut bench, &built.bytes);
    }
}
