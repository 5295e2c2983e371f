//! Segmentation descriptors with each of their choices, and their components.

use super::*;

fn reads(body: &str, expected: &[u64]) {
    let section = with_known(&[(2, body)]);
    lists(|n| descriptor(&section, n), &[expected]);
}

#[test]
fn a_cancelled_one_has_its_id_only() {
    reads("00000001 80", &[3, 1]);
    reads("FFFFFFFF FF", &[3, 0xFFFF_FFFF]);
    let section = with_known(&[(2, "00000001 80")]);
    let cancelled = Descriptor::CancelledSegmentation {
        segmentation_event_id: 1,
    };
    assert_eq!(descriptor(&section, 0), Ok(cancelled));
    no_list(|m| segmentation_component(&section, 0, m));
}

#[test]
fn delivery_not_restricted() {
    let expected = [2, 1, 0, 0, 0, 8, 0, 0x10, 1, 2, 0];
    reads("00000001 7F BF 08 00 10 01 02", &expected);
    // The reserved bits do not show.
    reads("00000001 00 A0 08 00 10 01 02", &expected);
}

#[test]
fn delivery_restricted() {
    let with = |four: [u64; 4]| [&[2, 1, 0, 1], &four[..], &[0, 8, 0, 0x10, 1, 2, 0]].concat();
    reads("00000001 7F 80 08 00 10 01 02", &with([0, 0, 0, 0]));
    reads("00000001 7F 90 08 00 10 01 02", &with([1, 0, 0, 0]));
    reads("00000001 7F 88 08 00 10 01 02", &with([0, 1, 0, 0]));
    reads("00000001 7F 84 08 00 10 01 02", &with([0, 0, 1, 0]));
    reads("00000001 7F 82 08 00 10 01 02", &with([0, 0, 0, 2]));
    reads("00000001 7F 81 08 00 10 01 02", &with([0, 0, 0, 1]));
    reads("00000001 7F 9F 08 00 10 01 02", &with([1, 1, 1, 3]));
}

#[test]
fn durations_have_40_bits() {
    let with = |ticks| [2, 1, 0, 0, 1, ticks, 8, 0, 0x10, 1, 2, 0];
    reads("00000001 7F FF 0000000000 08 00 10 01 02", &with(0));
    reads(
        "00000001 7F FF FFFFFFFFFF 08 00 10 01 02",
        &with((1 << 40) - 1),
    );
    reads("00000001 7F FF 0100000000 08 00 10 01 02", &with(1 << 32));
    reads("00000001 7F FF 8000000000 08 00 10 01 02", &with(1 << 39));
}

#[test]
fn sub_segments_are_there_or_not() {
    let without = |type_id| [2, 1, 0, 0, 0, 8, 0, type_id, 1, 2, 0];
    let with = |type_id| [2, 1, 0, 0, 0, 8, 0, type_id, 1, 2, 1, 3, 4];
    for type_id in crate::section::SUB_SEGMENT_TYPES {
        let body = format!("00000001 7F BF 08 00 {type_id:02x} 01 02");
        reads(&body, &without(type_id.into()));
        reads(&format!("{body} 03 04"), &with(type_id.into()));
    }
}

#[test]
fn components() {
    let section = with_known(&[
        (2, "00000001 7F BF 08 00 10 01 02"),
        (2, "00000002 7F 3F 00 08 00 10 01 02"),
        (
            2,
            "00000003 7F 7F 02 AA FF00000005 BB FEFFFFFFFF 0000000006 08 01 CC 10 01 02",
        ),
    ]);
    let expected: [&[u64]; 3] = [
        &[2, 1, 0, 0, 0, 8, 0, 0x10, 1, 2, 0],
        &[2, 2, 1, 0, 0, 0, 8, 0, 0x10, 1, 2, 0],
        &[2, 3, 1, 2, 0, 1, 6, 8, 1, 0x10, 1, 2, 0],
    ];
    lists(|n| descriptor(&section, n), &expected);
    for n in [0, 1, 3, 4, 5].into_iter().chain(FAR) {
        no_list(|m| segmentation_component(&section, n, m));
    }
    let expected: [&[u64]; 2] = [&[0xAA, (1 << 32) + 5], &[0xBB, 0xFFFF_FFFF]];
    lists(|m| segmentation_component(&section, 2, m), &expected);
    let second = SegmentationComponent {
        component_tag: 0xBB,
        pts_offset: 0xFFFF_FFFF,
    };
    assert_eq!(segmentation_component(&section, 2, 1), Ok(second));
}

#[test]
fn everything_at_once() {
    let body = "FFFFFFFF 7F 5B 01 AA FE00000005 FFFFFFFFFF 0C 03 414243 34 05 06 07 08";
    let section = with_known(&[(2, body)]);
    let expected = Descriptor::Segmentation(Segmentation {
        segmentation_event_id: u32::MAX,
        mode: Mode::Components { component_count: 1 },
        delivery_restrictions: Some(DeliveryRestrictions {
            web_delivery_allowed_flag: true,
            no_regional_blackout_flag: true,
            archive_allowed_flag: false,
            device_restrictions: 3,
        }),
        segmentation_duration: Some((1 << 40) - 1),
        segmentation_upid_type: 12,
        segmentation_upid_length: 3,
        segmentation_type_id: 0x34,
        segment_num: 5,
        segments_expected: 6,
        sub_segments: Some(SubSegments {
            sub_segment_num: 7,
            sub_segments_expected: 8,
        }),
    });
    assert_eq!(descriptor(&section, 0), Ok(expected));
    let ones = (1 << 40) - 1;
    let list = [
        2,
        0xFFFF_FFFF,
        1,
        1,
        1,
        1,
        1,
        0,
        3,
        1,
        ones,
        12,
        3,
        0x34,
        5,
        6,
        1,
        7,
        8,
    ];
    reads(body, &list);
}
