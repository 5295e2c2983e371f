//! The published samples that came through whole, and 003's with its lost `+` restored.

use super::*;
use crate::samples::{whole, RESTORED_TEXT_OF_003, TEXT_OF_004};
use crate::text::text_to_section;

fn sample(text: &str) -> Section {
    let bytes = text_to_section(text.as_bytes(), 4096).unwrap();
    let section = accept(&bytes).unwrap();
    assert_eq!(written_back(&section), bytes);
    section
}

/// The header of a sample: section_length, cw_index with tier, and splice_command_length are its
/// own.
fn header(section_length: u16, (cw_index, tier): (u8, u16), splice_command_length: u16) -> Header {
    Header {
        table_id: 0xFC,
        section_syntax_indicator: false,
        private_indicator: false,
        sap_type: 3,
        section_length,
        protocol_version: 0,
        encrypted_packet: false,
        encryption_algorithm: 0,
        pts_adjustment: 0,
        cw_index,
        tier,
        splice_command_length,
    }
}

fn given_time(pts_time: u64) -> SpliceTime {
    SpliceTime {
        time_specified_flag: true,
        reserved: 0x3F,
        pts_time: Some(pts_time),
    }
}

/// A program segment with a UPID of eight bytes and restricted delivery.
fn segment(web: bool, duration: Option<u64>, upid: u64, type_and_num: (u8, u8)) -> Segment {
    Segment {
        program_segmentation_flag: true,
        segmentation_duration_flag: duration.is_some(),
        delivery_not_restricted_flag: false,
        delivery: Delivery::Restricted {
            web_delivery_allowed_flag: web,
            no_regional_blackout_flag: true,
            archive_allowed_flag: true,
            device_restrictions: 3,
        },
        components: None,
        segmentation_duration: duration,
        segmentation_upid_type: 8,
        segmentation_upid: upid.to_be_bytes().to_vec(),
        segmentation_type_id: type_and_num.0,
        segment_num: type_and_num.1,
        segments_expected: 0,
        sub_segment: None,
    }
}

/// A time_signal() section with one segmentation descriptor.
fn signal(header: Header, time: u64, event: u32, segment: Segment, crc_32: u32) -> Section {
    let descriptor_length = if segment.segmentation_duration_flag {
        28
    } else {
        23
    };
    let body = Body::Segmentation(Segmentation {
        segmentation_event_id: event,
        segmentation_event_cancel_indicator: false,
        reserved: 0x7F,
        segment: Some(segment),
    });
    let descriptor = Descriptor {
        splice_descriptor_tag: 2,
        descriptor_length,
        identifier: CUEI,
        body,
    };
    let inside = Inside::Clear(Clear {
        splice_command_type: 6,
        command: Command::TimeSignal(given_time(time)),
        descriptor_loop_length: u16::from(descriptor_length) + 2,
        descriptors: vec![descriptor],
        alignment_stuffing: vec![],
    });
    Section {
        header,
        inside,
        crc_32,
    }
}

#[test]
fn the_text_of_004() {
    let segment = segment(false, Some(18_132_042), 0x20FB_6501, (52, 0));
    let expected = signal(
        header(52, (0, 0), 5),
        3_150_057,
        1_073_741_883,
        segment,
        922_414_497,
    );
    assert_eq!(sample(TEXT_OF_004), expected);
}

#[test]
fn the_restored_first_text_of_003() {
    let section = sample(RESTORED_TEXT_OF_003);
    assert_eq!(section.header, header(33, (0, 0xFFF), 16));
    let splicing = Splicing {
        out_of_network_indicator: true,
        program_splice_flag: true,
        duration_flag: true,
        splice_immediate_flag: false,
        reserved: 0xF,
        splice_time: Some(SpliceTime {
            time_specified_flag: false,
            reserved: 0x7F,
            pts_time: None,
        }),
        components: None,
        break_duration: Some(BreakDuration {
            auto_return: false,
            reserved: 0x3F,
            duration: 2_160_000,
        }),
        unique_program_id: 49_152,
        avail_num: 0,
        avails_expected: 0,
    };
    let insert = SpliceInsert {
        splice_event_id: 448,
        splice_event_cancel_indicator: false,
        reserved: 0x7F,
        splicing: Some(splicing),
    };
    let clear = Clear {
        splice_command_type: 5,
        command: Command::SpliceInsert(insert),
        descriptor_loop_length: 0,
        descriptors: vec![],
        alignment_stuffing: vec![],
    };
    assert_eq!(section.inside, Inside::Clear(clear));
}

#[test]
fn the_sections_of_002_clauses_14_3_14_5_and_14_7() {
    let texts = [whole("002, 14.3"), whole("002, 14.5"), whole("002, 14.7")];
    // Time, event, UPID, type with segment_num, CRC.
    let decoded = [
        (
            0x7462_90A0,
            0x4800_008E,
            0x2CA0_A18A,
            (0x35, 2),
            0xA9CC_6758,
        ),
        (
            0xAEBF_FF64,
            0x4800_0008,
            0x2CA5_6CF5,
            (0x17, 0),
            0x951D_B0A8,
        ),
        (
            0xAEF1_7C4C,
            0x4800_0007,
            0x2CA5_6C97,
            (0x11, 0),
            0xC487_6A2E,
        ),
    ];
    for (text, (time, event, upid, type_and_num, crc_32)) in texts.into_iter().zip(decoded) {
        let segment = segment(true, None, upid, type_and_num);
        let expected = signal(header(47, (0xFF, 0xFFF), 5), time, event, segment, crc_32);
        assert_eq!(sample(text), expected);
    }
}

#[test]
fn the_listing_of_003() {
    let section = sample(RESTORED_TEXT_OF_003);
    let expected = "\
table_id: 252 (0xfc)
section_syntax_indicator: 0
private_indicator: 0
sap_type: 3
section_length: 33 (0x21)
protocol_version: 0 (0x0)
encrypted_packet: 0
encryption_algorithm: 0
pts_adjustment: 0 (0x0)
cw_index: 0 (0x0)
tier: 4095 (0xfff)
splice_command_length: 16 (0x10)
splice_command_type: 5 (0x5)
splice_insert()
  splice_event_id: 448 (0x1c0)
  splice_event_cancel_indicator: 0
  reserved: 127
  out_of_network_indicator: 1
  program_splice_flag: 1
  duration_flag: 1
  splice_immediate_flag: 0
  reserved: 15
  splice_time()
    time_specified_flag: 0
    reserved: 127
  break_duration()
    auto_return: 0
    reserved: 63
    duration: 2160000 (0x20f580)
  unique_program_id: 49152 (0xc000)
  avail_num: 0 (0x0)
  avails_expected: 0 (0x0)
descriptor_loop_length: 0 (0x0)
alignment_stuffing: no bytes
CRC_32: 921020961 (0x36e5aa21)
";
    assert_eq!(listing(&section), expected);
}
