//! Each refusal, and what it says.

mod common;

use common::{section, section_of_004, TEXT_OF_004};
use timpanimist::*;

/// The published cue with one byte changed, its CRC put right.
fn with(place: usize, byte: u8) -> Vec<u8> {
    let mut section = section_of_004();
    let end = section.len() - 4;
    section[place] = byte;
    let crc = crc32(&section[..end]);
    section[end..].copy_from_slice(&crc.to_be_bytes());
    section
}

#[test]
fn a_section() {
    let section = section_of_004();
    let mut damaged = section.clone();
    damaged[35] ^= 1;
    assert_eq!(accept(&section[..19]), Err(Refusal::Short));
    assert_eq!(accept(&with(0, 0xFB)), Err(Refusal::Table));
    assert_eq!(accept(&with(1, 0x70)), Err(Refusal::Syntax));
    assert_eq!(accept(&section[..54]), Err(Refusal::Size));
    assert_eq!(accept(&damaged), Err(Refusal::Crc));
    assert_eq!(accept(&with(3, 1)), Err(Refusal::Version));
    assert_eq!(accept(&with(12, 6)), Err(Refusal::Command));
    assert_eq!(accept(&with(19, 1)), Err(Refusal::Loop));
    assert_eq!(accept(&with(22, 27)), Err(Refusal::Descriptor));
}

#[test]
fn a_sealed_section() {
    let sealed = with(4, 0x80);
    assert_eq!(accept(&sealed), Ok(()));
    assert_eq!(command(&sealed), Err(Refusal::Sealed));
    assert_eq!(known_count(&sealed), Err(Refusal::Sealed));
    assert_eq!(
        known_descriptors(&sealed).map(Iterator::count),
        Err(Refusal::Sealed)
    );
    assert_eq!(upid(&sealed, 0), Err(Refusal::Sealed));
    assert_eq!(effective_time(&sealed), Err(Refusal::Sealed));
    assert_eq!(dvb(&sealed), Err(Refusal::Sealed));
    assert_eq!(break_answer(&sealed), Ok(Break::Unread));
    assert_eq!(label(&sealed, b"House"), Label::House(b"House"));
}

#[test]
fn a_sealed_section_that_is_too_short() {
    let mut section = section(0, 0xFFF, &[], &[]);
    section[4] = 0x80;
    let crc = crc32(&section[..16]);
    section[16..].copy_from_slice(&crc.to_be_bytes());
    assert_eq!(accept(&section), Err(Refusal::Crypt));
}

#[test]
fn a_text() {
    assert_eq!(text_to_section(&TEXT_OF_004[1..]), Err(Refusal::TextLen));
    assert_eq!(text_to_section(b"AA-A"), Err(Refusal::TextChar));
    assert_eq!(text_to_section(b"AB=="), Err(Refusal::TextBits));
    assert_eq!(text_to_section(b""), Ok(vec![]));
}

#[test]
fn texts_at_the_limit() {
    assert_eq!(
        text_to_section(&[b'A'; LONGEST_TEXT]),
        Ok(vec![0; MOST_TEXT_BYTES])
    );
    assert_eq!(
        text_to_section(&[b'A'; LONGEST_TEXT + 4]),
        Err(Refusal::TextLen)
    );
    let longest = section_to_text(&[0; LONGEST_SECTION]).map(|text| text.len());
    assert_eq!(longest, Ok(LONGEST_TEXT));
    assert_eq!(
        section_to_text(&[0; LONGEST_SECTION + 1]),
        Err(Refusal::Size)
    );
}

#[test]
fn numbers_that_are_no_sheet() {
    assert_eq!(section_of_sheet(&[]), Err(Refusal::Sheet));
    assert_eq!(sheet(b"no section"), Err(Refusal::Short));
}

/// An insert of 255 components without a time, and 209 segmentation descriptors (docs/SHEET.md).
#[rustfmt::skip]
fn the_longest_sheet() -> Vec<u64> {
    let header = [0xFC, 0, 0, 3, 0, 0, 0, 0, 0, 0xFFF, 0xFFF];
    let insert = [5, 1, 0, 127, 1, 0, 0, 0, 15, 255];
    let component = [7, 0, 127];
    let avails_and_loop = [0, 0, 0, 209 * 17];
    let descriptor = [2, 15, 0x4355_4549, 8, 0, 127, 1, 0, 0, 1, 1, 1, 3, 0, 0, 0x10, 0, 0];
    let stuffing = [255; 2];
    [&header[..], &insert, &component.repeat(255), &avails_and_loop, &descriptor.repeat(209), &stuffing].concat()
}

#[test]
fn the_longest_sheet_fits() {
    let numbers = the_longest_sheet();
    let section = section_of_sheet(&numbers).unwrap();
    assert_eq!(
        (section.len(), numbers.len()),
        (LONGEST_SECTION, MOST_SHEET)
    );
    assert_eq!(sheet(&section), Ok(numbers));
}

#[test]
fn a_section_that_is_refused_still_has_a_label() {
    assert_eq!(label(b"no section", b"House"), Label::House(b"House"));
    assert_eq!(break_answer(b"no section"), Err(Refusal::Short));
}

#[test]
fn numbers_names_and_words() {
    for (place, refusal) in Refusal::ALL.into_iter().enumerate() {
        assert_eq!(refusal.number() as usize, place + 1);
        assert_eq!(Refusal::from_number(refusal.number()), Some(refusal));
    }
    assert_eq!(Refusal::from_number(0), None);
    assert_eq!(Refusal::from_number(18), None);
    assert_eq!(Refusal::TextLen.name(), "TEXTLEN");
    let error: Box<dyn std::error::Error> = Refusal::Version.into();
    assert_eq!(error.to_string(), "6 VERSION: protocol_version is not 0");
}
