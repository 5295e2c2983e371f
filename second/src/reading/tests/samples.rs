//! The published samples: 004's cue, 003's first with its lost `+` restored, and three of 002.

use super::*;
use crate::samples::{whole, RESTORED_TEXT_OF_003, TEXT_OF_004};
use crate::text::text_to_section;

fn sample(text: &str) -> Vec<u8> {
    text_to_section(text.as_bytes(), 4096).unwrap()
}

#[test]
fn the_cue_of_004() {
    let section = sample(TEXT_OF_004);
    let signal = Command::TimeSignal(Time::Given(3_150_057));
    assert_eq!(command(&section), Ok(signal));
    assert_eq!(flat(command(&section)), Ok(vec![4, 2, 3_150_057]));
    assert_eq!(descriptor_count(&section), Ok(1));
    let segmentation = Descriptor::Segmentation(Segmentation {
        segmentation_event_id: 1_073_741_883,
        mode: Mode::Program,
        delivery_restrictions: Some(DeliveryRestrictions {
            web_delivery_allowed_flag: false,
            no_regional_blackout_flag: true,
            archive_allowed_flag: true,
            device_restrictions: 3,
        }),
        segmentation_duration: Some(18_132_042),
        segmentation_upid_type: 8,
        segmentation_upid_length: 8,
        segmentation_type_id: 52,
        segment_num: 0,
        segments_expected: 0,
        sub_segments: None,
    });
    assert_eq!(descriptor(&section, 0), Ok(segmentation));
    let list: &[u64] = &[
        2,
        1_073_741_883,
        0,
        1,
        0,
        1,
        1,
        3,
        1,
        18_132_042,
        8,
        8,
        52,
        0,
        0,
        0,
    ];
    lists(|n| descriptor(&section, n), &[list]);
    let upid_list: &[u64] = &[40, 8, 0, 0, 0, 0, 32, 251, 101, 1];
    lists(|n| upid(&section, n), &[upid_list]);
    no_list(|m| segmentation_component(&section, 0, m));
}

#[test]
fn the_restored_first_text_of_003() {
    let section = sample(RESTORED_TEXT_OF_003);
    let insert = Command::Insert(Insert {
        splice_event_id: 448,
        out_of_network_indicator: true,
        time: Time::NotGiven,
        mode: Mode::Program,
        break_duration: Some(BreakDuration {
            auto_return: false,
            duration: 2_160_000,
        }),
        unique_program_id: 49_152,
        avail_num: 0,
        avails_expected: 0,
    });
    assert_eq!(command(&section), Ok(insert));
    let list = vec![2, 448, 1, 1, 0, 1, 0, 2_160_000, 49_152, 0, 0];
    assert_eq!(flat(command(&section)), Ok(list));
    assert_eq!(descriptor_count(&section), Ok(0));
    no_list(|n| insert_component(&section, n));
    no_list(|n| descriptor(&section, n));
}

#[test]
fn the_sections_of_002_clauses_14_3_14_5_and_14_7() {
    // Text; time, event, UPID as one number, type, segment_num.
    let samples = [
        (
            whole("002, 14.3"),
            (0x7462_90A0, 0x4800_008E, 0x2CA0_A18A, 0x35, 2),
        ),
        (
            whole("002, 14.5"),
            (0xAEBF_FF64, 0x4800_0008, 0x2CA5_6CF5, 0x17, 0),
        ),
        (
            whole("002, 14.7"),
            (0xAEF1_7C4C, 0x4800_0007, 0x2CA5_6C97, 0x11, 0),
        ),
    ];
    for (text, (time, event_id, upid_number, type_id, segment_num)) in samples {
        let section = sample(text);
        assert_eq!(flat(command(&section)), Ok(vec![4, 2, time]));
        let list: &[u64] = &[
            2,
            event_id,
            0,
            1,
            1,
            1,
            1,
            3,
            0,
            8,
            8,
            type_id,
            segment_num,
            0,
            0,
        ];
        lists(|n| descriptor(&section, n), &[list]);
        let expected = u64::to_be_bytes(upid_number);
        let upid = upid(&section, 0).unwrap();
        assert_eq!((upid.offset, upid.bytes), (35, expected.as_slice()));
    }
}
