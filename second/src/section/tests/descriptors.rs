//! Each descriptor's grammar: its body is used up exactly, and never read past its own length.

use super::*;
use crate::refusal::DESCRIPTOR;

/// The inside of a splice_null() section with one descriptor: its tag, identifier and body.
fn with_descriptor(tag: u8, identifier: &str, body: &str) -> String {
    let length = body.replace(' ', "").len() / 2 + 4;
    let loop_length = length + 2;
    format!("00 {loop_length:04x} {tag:02x} {length:02x} {identifier} {body}")
}

fn refused(tag: u8, body: &str) -> bool {
    let row = row(0, &with_descriptor(tag, "43554549", body));
    assert!(row == 0 || row == DESCRIPTOR);
    row != 0
}

/// The body is read; one byte more or less is not, even where other bytes stand behind it.
fn is_whole(tag: u8, body: &str) {
    let bytes = section(0, &with_descriptor(tag, "43554549", body));
    assert_eq!(written_back(&accept(&bytes).unwrap()), bytes);
    assert!(refused(tag, &format!("{body}00")), "{body}");
    assert!(refused(tag, &body[..body.len() - 2]), "{body}");

    let mut split = with_descriptor(tag, "43554549", body);
    let loop_length = u16::from_str_radix(&split[3..7], 16).unwrap() + 6;
    split.replace_range(3..7, &format!("{loop_length:04x}"));
    let length = u8::from_str_radix(&split[11..13], 16).unwrap();
    split += "05 04 43554549";
    assert_eq!(row(0, &split), 0, "{split}");
    for other in [length - 1, length + 1] {
        split.replace_range(11..13, &format!("{other:02x}"));
        assert_eq!(row(0, &split), DESCRIPTOR, "{split}");
    }
}

#[test]
fn known_bodies() {
    is_whole(0, "12345678");
    is_whole(1, "AA 1F");
    is_whole(1, "AA FF 31323334353637");
    is_whole(3, "FFFFFFFFFFFF FFFFFFFF FFFF");
    is_whole(4, "0F");
    is_whole(4, "20 AA656E67 FF BB656E67 00");
}

#[test]
fn segmentation_bodies() {
    is_whole(2, "00000001 FF");
    is_whole(2, "00000001 80");
    is_whole(2, "00000001 7F BF 00 00 10 01 01");
    is_whole(2, "00000001 7F FF FFFFFFFFFF 08 02 AABB 10 01 01");
    is_whole(2, "00000001 7F 9F 00 00 10 01 01");
    is_whole(2, "00000001 7F 1F 00 00 00 10 01 01");
    is_whole(
        2,
        "00000001 7F 40 01 AA FF00000000 0000000000 00 01 CC 10 01 01",
    );
}

#[test]
fn sub_segments_are_two_bytes_of_eight_types() {
    for kind in 0..=255u8 {
        let body = format!("00000001 7F BF 00 00 {kind:02x} 01 01");
        let may = SUB_SEGMENT_TYPES.contains(&kind);
        assert!(!refused(2, &body));
        assert!(refused(2, &format!("{body} 01")));
        assert_eq!(refused(2, &format!("{body} 0102")), !may);
        assert!(refused(2, &format!("{body} 010203")));
        assert!(refused(2, &format!("{body} 01020304")));
    }
}

#[test]
fn a_duration_has_forty_bits() {
    let body = "00000001 7F FF FFFFFFFFFF 00 00 10 01 01";
    let clear = clear(&section(0, &with_descriptor(2, "43554549", body)));
    let Body::Segmentation(segmentation) = &clear.descriptors[0].body else {
        panic!("another descriptor");
    };
    let segment = segmentation.segment.as_ref().unwrap();
    assert_eq!(segment.segmentation_duration, Some((1 << 40) - 1));
}

#[test]
fn unknown_descriptors_are_any_bytes() {
    for (tag, identifier) in [
        (0, "43554548"),
        (2, "00000000"),
        (5, "43554549"),
        (255, "43554549"),
    ] {
        for body in ["", "00", "FFFFFFFF", "00000001 7F FF"] {
            let clear = clear(&section(0, &with_descriptor(tag, identifier, body)));
            let bytes = from_hex(&body.replace(' ', "")).unwrap();
            assert_eq!(clear.descriptors[0].body, Body::Unknown(bytes));
        }
    }
    for tag in 0..=4 {
        assert!(refused(tag, ""));
    }
}

#[test]
fn a_length_below_four_is_refused_whatever_follows() {
    for length in 0..4 {
        assert_eq!(
            row(0, &format!("00 0006 05 {length:02x} 43554549")),
            DESCRIPTOR
        );
        let count = length + 2;
        let bytes = "00".repeat(length);
        let inside = format!("00 {count:04x} 05 {length:02x} {bytes}");
        assert_eq!(row(0, &inside), DESCRIPTOR);
    }
}

#[test]
fn descriptors_are_kept_in_their_order() {
    let inside = "00 001C 0504 43554549 0008 43554549 00000001 0004 00000000 0504 43554549 FF";
    let clear = clear(&section(0, inside));
    let tags: Vec<u8> = clear
        .descriptors
        .iter()
        .map(|descriptor| descriptor.splice_descriptor_tag)
        .collect();
    assert_eq!(tags, [5, 0, 0, 5]);
    assert_eq!(clear.alignment_stuffing, [0xFF]);
}
