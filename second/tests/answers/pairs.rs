//! Pairs of sections that differ only in what no answer may rest on: their sheets are related, and
//! every answer is the same. Where a field differs that has a name, they are not related.

use crate::built::{partner, unsealed_section, with_crc, Partner, CHANGES};
use crate::counts::Counts;
use crate::fields::fields;
use crate::random;
use second::reading::{numbers, Reading};
use second::section::{accept, Apart, Item};
use second::sheet::{related, section_of, sheet_of};

type Answer = Result<Vec<u64>, u8>;

fn flat(answer: Result<impl Reading, u8>) -> Answer {
    answer.map(|answer| numbers(&answer))
}

fn flat_bytes(bytes: &[u8]) -> Answer {
    Ok(bytes.iter().map(|byte| u64::from(*byte)).collect())
}

/// Every answer; of a UPID and of the label the bytes, and not where they lie.
fn all_answers(section: &[u8]) -> Vec<Answer> {
    let section = &Apart::of(section);
    let mut answers = vec![
        flat(section.break_answer()),
        flat(section.dash_duration()),
        flat(section.effective_time()),
        flat(section.dvb()),
        flat_bytes(section.bill_label(b"a house name").bytes()),
        flat(section.command()),
        flat(section.descriptor_count()),
    ];
    let to = &mut answers;
    whole_list(to, |n| flat(section.insert_component(n)));
    whole_list(to, |n| flat(section.private_byte(n)));
    for n in 0..whole_list(to, |n| flat(section.event(n))) {
        whole_list(to, |m| flat(section.event_component(n, m)));
    }
    for n in 0..whole_list(to, |n| flat(section.descriptor(n))) {
        let upid = section.upid(n);
        to.push(upid.and_then(|upid| flat_bytes(upid.bytes)));
        whole_list(to, |m| flat(section.dtmf_char(n, m)));
        whole_list(to, |m| flat(section.segmentation_component(n, m)));
        whole_list(to, |m| flat(section.audio_component(n, m)));
    }
    answers
}

/// Asks until nothing is there, and says how much was there.
fn whole_list(answers: &mut Vec<Answer>, ask: impl Fn(u64) -> Answer) -> u64 {
    for number in 0.. {
        let answer = ask(number);
        let ends = answer.is_err();
        answers.push(answer);
        if ends {
            return number;
        }
    }
    unreachable!("every list ends")
}

#[test]
fn partners_are_related_and_have_the_same_answers() {
    let random = &mut random();
    let mut counts = Counts::default();
    for _ in 0..10_000 {
        let section = unsealed_section(random).bytes;
        let Partner { bytes, changes } = partner(random, &section);
        assert_ne!(bytes, section);
        let (sheet, other) = (sheet_of(&section).unwrap(), sheet_of(&bytes).unwrap());
        assert!(related(&sheet, &other) && related(&other, &sheet));
        assert_eq!(all_answers(&section), all_answers(&bytes));
        for change in changes {
            counts.count(format!("{change:?}"));
        }
    }
    counts.reached(&CHANGES.map(|change| format!("{change:?}")), 300);
}

/// The sheet with one number changed is a sheet of another section, now and then: the two are related
/// exactly where the number is one of those that are set to 0 or taken out.
#[test]
fn a_field_with_a_name_is_not_passed_over() {
    let random = &mut random();
    let mut counts = Counts::default();
    for _ in 0..3_000 {
        let section = unsealed_section(random).bytes;
        let sheet = sheet_of(&section).unwrap();
        let fields = fields(&section);
        let unknown = places_of_unknown(&section);
        for _ in 0..10 {
            let place = random.within(0..=sheet.len() - 1);
            let (name, width) = fields[place];
            let mut other = sheet.clone();
            other[place] = random.field(width);
            if other == sheet || section_of(&other).is_err() {
                continue;
            }
            let expected = match name {
                "sap_type" | "reserved" | "alignment_stuffing" => true,
                "private_byte" if unknown.contains(&place) => true,
                // These can make another descriptor of an unknown one, or more of the stuffing.
                "descriptor_loop_length" => continue,
                _ if unknown.contains(&place) => continue,
                _ => false,
            };
            assert_eq!(related(&sheet, &other), expected, "{name} at {place}");
            counts.count(if expected { "related" } else { "not related" });
        }
    }
    let expected = ["related", "not related"].map(String::from);
    counts.reached(&expected, 1_000);
}

/// The places on the sheet that belong to unknown descriptors.
fn places_of_unknown(section: &[u8]) -> Vec<usize> {
    let mut places = Vec::new();
    let mut place = 0;
    let mut inside = false;
    for item in accept(section).unwrap().items() {
        let count = match &item {
            Item::Open(name) => {
                inside = *name == "splice_descriptor()";
                0
            }
            Item::Close => {
                inside = false;
                0
            }
            Item::Number("section_length" | "CRC_32", ..) => 0,
            Item::Number(..) => 1,
            Item::Bytes(_, bytes) => bytes.len(),
        };
        if inside {
            places.extend(place..place + count);
        }
        place += count;
    }
    places
}

/// A section is related to itself, and a change that any answer shows is never passed over.
#[test]
fn where_answers_differ_sheets_are_not_related() {
    let random = &mut random();
    let mut counts = Counts::default();
    for _ in 0..4_000 {
        let section = unsealed_section(random).bytes;
        let at = random.within(0..=section.len() - 5);
        let mut other = section.clone();
        other[at] ^= 1 << random.within(0..=7);
        let other = with_crc(&other);
        let Ok(other_sheet) = sheet_of(&other) else {
            continue;
        };
        let sheet = sheet_of(&section).unwrap();
        assert!(related(&sheet, &sheet));
        let same = all_answers(&section) == all_answers(&other);
        let related = related(&sheet, &other_sheet);
        assert!(same || !related);
        counts.count(match (same, related) {
            (true, true) => "related",
            (true, false) => "not related, but the same answers",
            _ => "other answers",
        });
    }
    let expected = [
        "related",
        "not related, but the same answers",
        "other answers",
    ];
    counts.reached(&expected.map(String::from), 100);
}
