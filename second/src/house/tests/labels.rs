//! Bill labels: the first UPID with bytes, or the house name.

use super::*;

const HOUSE: &[u8] = b"House";

fn is_upid(section: &[u8], offset: usize, bytes: &[u8]) {
    let label = bill_label(section, HOUSE);
    assert_eq!(label, Label::Upid { offset, bytes });
    assert!(std::ptr::eq(
        label.bytes(),
        &section[offset..offset + bytes.len()]
    ));
    let list = [0, offset as u64, bytes.len() as u64];
    assert_eq!(numbers(&label), list);
}

fn is_house_name(section: &[u8]) {
    let label = bill_label(section, HOUSE);
    assert_eq!(label, Label::HouseName(HOUSE));
    assert!(std::ptr::eq(label.bytes(), HOUSE));
    assert_eq!(numbers(&label), [1]);
    assert_eq!(bill_label(section, b"").bytes(), b"");
}

#[test]
fn the_first_that_has_bytes() {
    let upid = |upid| known(&segment(0x10, None, upid));
    // 17 bytes before the loop, 6 of the descriptor before its body, 8 of its body.
    is_upid(&signal(&[upid("AB")]), 31, &[0xAB]);
    is_upid(&signal(&[upid("AB"), upid("CD")]), 31, &[0xAB]);
    // An empty one has 17 bytes.
    is_upid(&signal(&[upid(""), upid("CD")]), 48, &[0xCD]);
    is_upid(&signal(&[upid(""), upid(""), upid("01 02")]), 65, &[1, 2]);
    is_house_name(&signal(&[upid(""), upid("")]));
    // Behind a duration.
    is_upid(
        &signal(&[known(&segment(0x10, Some(5), "AB"))]),
        36,
        &[0xAB],
    );
}

#[test]
fn cancelled_and_unknown_descriptors_have_none() {
    let body = segment(0x34, None, "AB");
    is_house_name(&signal(&[]));
    is_house_name(&signal(&[known(CANCELLED)]));
    is_house_name(&signal(&[descriptor(2, "43554548", &body)]));
    is_house_name(&signal(&[descriptor(5, CUEI, &body)]));
    // They stand before one that has, and move it.
    is_upid(&signal(&[known(CANCELLED), known(&body)]), 42, &[0xAB]);
    let foreign = descriptor(2, "43554548", &body);
    is_upid(&signal(&[foreign, known(&body)]), 49, &[0xAB]);
}

#[test]
fn under_every_command() {
    let descriptors = [known(&segment(0x10, None, "AB"))];
    is_upid(&with(0x00, "", &descriptors), 30, &[0xAB]);
    is_upid(&with(0x07, "", &descriptors), 30, &[0xAB]);
    is_upid(&with(0x04, "00", &descriptors), 31, &[0xAB]);
    is_upid(&with(0x05, "00000009 FF", &descriptors), 35, &[0xAB]);
    is_upid(&with(0xFF, "41424344", &descriptors), 34, &[0xAB]);
    is_upid(&with(0x55, "01", &descriptors), 31, &[0xAB]);
}

#[test]
fn a_refused_or_sealed_section_has_the_house_name() {
    for (section, _) in refused_sections() {
        is_house_name(&section);
    }
    let good = signal(&[known(&segment(0x10, None, "AB"))]);
    is_house_name(&sealed(&good));
    // The same bytes without the last.
    is_house_name(&good[..good.len() - 1]);
}
