//! Which bits of a section are in its answers: those of a field that is read, and no other.

use crate::built::{any_section, with_crc, Size};
use crate::random::Random;
use crate::{flat, random, Answer};
use second::section::{accept, Apart, Inside, Item};

/// The answer to every question with every number, two past each count.
fn all_answers(section: &[u8]) -> Vec<Answer> {
    let section = &Apart::of(section);
    let mut answers = vec![flat(section.command()), flat(section.descriptor_count())];
    every_number(&mut answers, |n| flat(section.insert_component(n)));
    every_number(&mut answers, |n| flat(section.private_byte(n)));
    let events = every_number(&mut answers, |n| flat(section.event(n)));
    for n in 0..events + 3 {
        every_number(&mut answers, |m| flat(section.event_component(n, m)));
    }
    let descriptors = every_number(&mut answers, |n| flat(section.descriptor(n)));
    for n in 0..descriptors + 3 {
        answers.push(upid_bytes(section, n));
        every_number(&mut answers, |m| flat(section.dtmf_char(n, m)));
        every_number(&mut answers, |m| flat(section.segmentation_component(n, m)));
        every_number(&mut answers, |m| flat(section.audio_component(n, m)));
    }
    answers
}

/// Without the place, which may move where the bytes stay.
fn upid_bytes(section: &Apart, n: u64) -> Answer {
    let upid = section.upid(n)?;
    Ok(upid.bytes.iter().map(|byte| u64::from(*byte)).collect())
}

/// Asks until nothing is there for the third time, and says how much was there.
fn every_number(answers: &mut Vec<Answer>, ask: impl Fn(u64) -> Answer) -> u64 {
    let mut there = 0;
    for number in 0.. {
        let answer = ask(number);
        there += u64::from(answer.is_ok());
        answers.push(answer);
        if number >= there + 2 {
            break;
        }
    }
    there
}

/// A field of a section: its name, the structure that it is in, its first bit and its width.
struct Place {
    name: &'static str,
    group: &'static str,
    at: usize,
    width: usize,
}

fn places(section: &[u8]) -> Vec<Place> {
    let mut places = Vec::new();
    let mut groups = vec![""];
    let mut at = 0;
    for item in accept(section).expect("an accepted section").items() {
        let (name, width) = match item {
            Item::Open(group) => {
                groups.push(group);
                continue;
            }
            Item::Close => {
                groups.pop();
                continue;
            }
            Item::Number(name, width, _) => (name, width),
            Item::Bytes(name, bytes) => (name, 8 * bytes.len()),
        };
        let group = groups[groups.len() - 1];
        places.push(Place {
            name,
            group,
            at,
            width,
        });
        at += width;
    }
    places
}

fn flipped(section: &[u8], bit: usize) -> Vec<u8> {
    let mut section = section.to_vec();
    section[bit / 8] ^= 0x80 >> (bit % 8);
    with_crc(&section)
}

fn unsealed(random: &mut Random) -> Vec<u8> {
    loop {
        let section = any_section(random, Size::Short).bytes;
        let inside = accept(&section).expect("an accepted section").inside;
        if matches!(inside, Inside::Clear(_)) {
            return section;
        }
    }
}

/// What no answer carries: reserved bits, the header, stuffing, and what is in an unknown command
/// or an unknown descriptor.
fn is_unsaid(place: &Place) -> bool {
    const HEADER: [&str; 6] = [
        "sap_type",
        "encryption_algorithm",
        "pts_adjustment",
        "cw_index",
        "tier",
        "alignment_stuffing",
    ];
    let of_an_unknown =
        matches!(place.name, "command_byte" | "private_byte") && place.group != "private_command()";
    place.name == "reserved" || HEADER.contains(&place.name) || of_an_unknown
}

#[test]
fn reserved_bits_change_no_answer() {
    let random = &mut random();
    let mut changed = 0;
    for _ in 0..120 {
        let section = unsealed(random);
        let answers = all_answers(&section);
        for place in places(&section).iter().filter(|place| is_unsaid(place)) {
            for bit in place.at..place.at + place.width {
                if place.width > 8 && !random.once_in(8) {
                    continue;
                }
                let other = flipped(&section, bit);
                assert_eq!(all_answers(&other), answers, "{}", place.name);
                changed += 1;
            }
        }
    }
    println!("bits changed: {changed}");
    assert!(changed > 500);
}

/// What an answer carries: every field of the command and of the known descriptors.
fn is_said(place: &Place) -> bool {
    let framing = [
        "table_id",
        "section_syntax_indicator",
        "private_indicator",
        "section_length",
        "protocol_version",
        "encrypted_packet",
        "splice_command_length",
        "splice_command_type",
        "descriptor_loop_length",
        "descriptor_length",
        "CRC_32",
    ];
    let of_an_unknown = place.group == "splice_descriptor()";
    !is_unsaid(place) && !framing.contains(&place.name) && !of_an_unknown
}

#[test]
fn every_other_bit_changes_an_answer() {
    let random = &mut random();
    let mut changed = 0;
    for _ in 0..40 {
        let section = unsealed(random);
        let answers = all_answers(&section);
        for place in places(&section).iter().filter(|place| is_said(place)) {
            for bit in place.at..place.at + place.width {
                let other = flipped(&section, bit);
                if accept(&other).is_ok() {
                    assert_ne!(all_answers(&other), answers, "{}", place.name);
                    changed += 1;
                }
            }
        }
    }
    println!("bits changed: {changed}");
    assert!(changed > 500);
}
