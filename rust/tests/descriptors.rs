//! Every known descriptor, and the lists inside it.

mod common;

use common::{section, Descriptor as Numbers};
use timpanimist::*;

const AVAIL: Numbers = Numbers {
    tag: 0,
    bytes: 8,
    numbers: &[309],
};
const DTMF: Numbers = Numbers {
    tag: 1,
    bytes: 8,
    numbers: &[5, 2, 31, 0x31, 0x23],
};
const UNKNOWN: Numbers = Numbers {
    tag: 5,
    bytes: 5,
    numbers: &[9],
};
const CANCELLED: Numbers = Numbers {
    tag: 2,
    bytes: 9,
    numbers: &[7, 1, 127],
};
const TIME: Numbers = Numbers {
    tag: 3,
    bytes: 16,
    numbers: &[1 << 40, 999, 37],
};
const AUDIO: Numbers = Numbers {
    tag: 4,
    bytes: 10,
    numbers: &[1, 15, 1, 0x656E67, 2, 9, 1],
};
/// By components, not restricted, with a UPID of two bytes and sub-segments.
const SEGMENTATION: Numbers = Numbers {
    tag: 2,
    bytes: 31,
    numbers: &[
        8,
        0,
        127,
        0,
        1,
        1,
        31,
        1,
        7,
        127,
        45_000,
        (1 << 40) - 1,
        9,
        2,
        65,
        66,
        0x34,
        1,
        2,
        3,
        4,
    ],
};
/// The barest one, whose UPID has no bytes.
const BARE: Numbers = Numbers {
    tag: 2,
    bytes: 15,
    numbers: &[9, 0, 127, 1, 0, 1, 31, 0, 0, 0x22, 0, 0],
};

/// A time signal with all of them.
fn all() -> Vec<u8> {
    let descriptors = [
        UNKNOWN,
        AVAIL,
        DTMF,
        CANCELLED,
        BARE,
        UNKNOWN,
        SEGMENTATION,
        TIME,
        AUDIO,
    ];
    section(6, 0xFFF, &[0, 127], &descriptors)
}

/// That segmentation is known descriptor 4.
fn said() -> Segmentation {
    Segmentation {
        segmentation_event_id: EventId(8),
        mode: Mode::Components { component_count: 1 },
        delivery: Delivery::NotRestricted,
        duration: Duration::Present(Ticks((1 << 40) - 1)),
        segmentation_upid_type: 9,
        segmentation_upid_length: 2,
        segmentation_type_id: 0x34,
        segment_num: 1,
        segments_expected: 2,
        sub_segments: SubSegments::Present {
            sub_segment_num: 3,
            sub_segments_expected: 4,
        },
    }
}

#[test]
fn known_ones_are_counted_and_told_in_order() {
    let section = all();
    let told: Vec<_> = known_descriptors(&section).unwrap().collect();
    assert_eq!(known_count(&section), Ok(told.len()));
    assert_eq!(
        told[0],
        Descriptor::Avail {
            provider_avail_id: 309
        }
    );
    assert_eq!(
        told[1],
        Descriptor::Dtmf {
            preroll: 5,
            dtmf_count: 2
        }
    );
    let cancelled = Descriptor::CancelledSegmentation {
        segmentation_event_id: EventId(7),
    };
    assert_eq!(told[2], cancelled);
    assert_eq!(told[4], Descriptor::Segmentation(said()));
    let time = Descriptor::Time {
        tai_seconds: 1 << 40,
        tai_ns: 999,
        utc_offset: 37,
    };
    assert_eq!(told[5], time);
    assert_eq!(told[6], Descriptor::Audio { audio_count: 1 });
    assert_eq!(told.len(), 7);
}

#[test]
fn an_absent_duration_is_no_duration_of_0() {
    let bare = known_descriptor(&all(), 3).unwrap();
    assert!(matches!(
        bare,
        Descriptor::Segmentation(Segmentation {
            mode: Mode::Program,
            duration: Duration::Absent,
            sub_segments: SubSegments::Absent,
            ..
        })
    ));
}

#[test]
fn lists_inside_them() {
    let section = all();
    assert_eq!(
        dtmf_chars(&section, 1).unwrap().collect::<Vec<_>>(),
        [0x31, 0x23]
    );
    let segmented = SegmentationComponent {
        component_tag: 7,
        pts_offset: Ticks(45_000),
    };
    assert_eq!(
        segmentation_components(&section, 4)
            .unwrap()
            .collect::<Vec<_>>(),
        [segmented]
    );
    let heard = AudioComponent {
        component_tag: 1,
        iso_code: 0x656E67,
        bit_stream_mode: 2,
        num_channels: 9,
        full_srvc_audio: true,
    };
    assert_eq!(
        audio_components(&section, 6).unwrap().collect::<Vec<_>>(),
        [heard]
    );
    assert_eq!(audio_component(&section, 6, 1), Err(Refusal::NotHere));
    assert_eq!(dtmf_chars(&section, 0).unwrap().count(), 0);
}

#[test]
fn a_upid_of_no_bytes_is_an_answer() {
    let section = all();
    assert_eq!(upid(&section, 3), Ok(&[][..]));
    assert_eq!(upid(&section, 4), Ok(&b"AB"[..]));
    assert_eq!(upid(&section, 2), Err(Refusal::NotHere));
}

#[test]
fn the_first_upid_that_has_bytes_is_the_label() {
    assert_eq!(label(&all(), b"House"), Label::Upid(b"AB"));
    let without = section(6, 0xFFF, &[0, 127], &[BARE]);
    assert_eq!(label(&without, b"House"), Label::House(b"House"));
    assert_eq!(bill_label(&without, b""), b"");
}
