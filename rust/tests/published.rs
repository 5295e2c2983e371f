//! What the published cue of source document 004 says.

mod common;

use common::{section_of_004, TEXT_OF_004};
use timpanimist::*;

const UPID: [u8; 8] = [0, 0, 0, 0, 0x20, 0xFB, 0x65, 0x01];

#[test]
fn its_text_is_55_bytes_and_back() {
    let section = section_of_004();
    assert_eq!(section.len(), 55);
    assert_eq!(
        section_to_text(&section).map(String::into_bytes),
        Ok(TEXT_OF_004.to_vec())
    );
}

#[test]
fn it_is_accepted() {
    assert_eq!(accept(&section_of_004()), Ok(()));
    assert_eq!(crc32(&section_of_004()), 0);
}

#[test]
fn its_sheet_has_43_numbers_and_gives_the_section_back() {
    let numbers = sheet(&section_of_004()).unwrap();
    let header = [252, 0, 0, 3, 0, 0, 0, 0, 0, 0, 5, 6, 1, 63, 3_150_057, 30];
    let descriptor = [
        2,
        28,
        1_129_661_769,
        1_073_741_883,
        0,
        127,
        1,
        1,
        0,
        0,
        1,
        1,
        3,
        18_132_042,
    ];
    let upid_and_type = [8, 8, 0, 0, 0, 0, 32, 251, 101, 1, 52, 0, 0];
    assert_eq!(numbers, [&header[..], &descriptor, &upid_and_type].concat());
    assert_eq!(section_of_sheet(&numbers), Ok(section_of_004()));
}

#[test]
fn its_command_is_a_time_signal() {
    let given = SpliceTime::Given(Ticks(3_150_057));
    assert_eq!(command(&section_of_004()), Ok(Command::TimeSignal(given)));
}

#[test]
fn its_only_descriptor_is_a_segmentation() {
    let said = Segmentation {
        segmentation_event_id: EventId(1_073_741_883),
        mode: Mode::Program,
        delivery: Delivery::Restricted {
            web_delivery_allowed_flag: false,
            no_regional_blackout_flag: true,
            archive_allowed_flag: true,
            device_restrictions: 3,
        },
        duration: Duration::Present(Ticks(18_132_042)),
        segmentation_upid_type: 8,
        segmentation_upid_length: 8,
        segmentation_type_id: 0x34,
        segment_num: 0,
        segments_expected: 0,
        sub_segments: SubSegments::Absent,
    };
    let section = section_of_004();
    assert_eq!(known_count(&section), Ok(1));
    assert_eq!(
        known_descriptor(&section, 0),
        Ok(Descriptor::Segmentation(said))
    );
    assert_eq!(known_descriptor(&section, 1), Err(Refusal::NotHere));
}

#[test]
fn its_upid_is_a_part_of_the_section() {
    let section = section_of_004();
    let part = upid(&section, 0).unwrap();
    assert_eq!(part, UPID);
    assert_eq!(part.as_ptr(), section[40..].as_ptr());
    assert_eq!(upid(&section, 1), Err(Refusal::NotHere));
}

#[test]
fn it_has_no_other_lists() {
    let section = section_of_004();
    assert_eq!(insert_component(&section, 0), Err(Refusal::NotHere));
    assert_eq!(schedule_event(&section, 0), Err(Refusal::NotHere));
    assert_eq!(event_component(&section, 0, 0), Err(Refusal::NotHere));
    assert_eq!(private_byte(&section, 0), Err(Refusal::NotHere));
    assert_eq!(dtmf_char(&section, 0, 0), Err(Refusal::NotHere));
    assert_eq!(
        segmentation_component(&section, 0, 0),
        Err(Refusal::NotHere)
    );
    assert_eq!(audio_component(&section, 0, 0), Err(Refusal::NotHere));
    assert_eq!(insert_components(&section).map(Iterator::count), Ok(0));
}

#[test]
fn the_house_bills_a_break_of_201467_ms_under_its_upid() {
    let section = section_of_004();
    assert_eq!(
        break_answer(&section),
        Ok(Break::Measured(Ticks(18_132_042)))
    );
    assert_eq!(Ticks(18_132_042).to_millis(), Millis(201_467));
    assert_eq!(
        effective_time(&section),
        Ok(EffectiveTime::At(Ticks(3_150_057)))
    );
    assert_eq!(dvb(&section), Ok(true));
    assert_eq!(label(&section, b"Channel 9"), Label::Upid(&UPID));
    assert_eq!(bill_label(&section, b"Channel 9"), UPID);
}
