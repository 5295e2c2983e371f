//! The published samples: 004's cue, 003's first with its lost `+` restored, and three of 002.

use super::*;
use crate::reading::{command, Command};
use crate::samples::{whole, RESTORED_TEXT_OF_003, TEXT_OF_004};
use crate::text::text_to_section;
use crate::units::ticks_to_millis;

const HOUSE: &[u8] = b"House";

fn sample(text: &str) -> Vec<u8> {
    text_to_section(text.as_bytes(), 4096).unwrap()
}

#[test]
fn the_cue_of_004() {
    let section = sample(TEXT_OF_004);
    let ticks = 18_132_042;
    assert_eq!(break_answer(&section), Ok(Break::Measured { ticks }));
    assert_eq!(ticks_to_millis(ticks), 201_467);
    let lasts = DashDuration::Lasts { ticks };
    assert_eq!(dash_duration(&section), Ok(lasts));
    let at = EffectiveTime::At { ticks: 3_150_057 };
    assert_eq!(effective_time(&section), Ok(at));
    assert_eq!(dvb(&section), Ok(Dvb::Yes));
    let label = Label::Upid {
        offset: 40,
        bytes: &[0, 0, 0, 0, 0x20, 0xFB, 0x65, 0x01],
    };
    assert_eq!(bill_label(&section, HOUSE), label);
}

#[test]
fn the_restored_first_text_of_003() {
    let section = sample(RESTORED_TEXT_OF_003);
    assert_eq!(section.len(), 36);
    let Ok(Command::Insert(insert)) = command(&section) else {
        panic!("an insert");
    };
    assert_eq!(insert.splice_event_id, 448);
    let ticks = 2_160_000;
    assert_eq!(break_answer(&section), Ok(Break::Measured { ticks }));
    assert_eq!(ticks_to_millis(ticks), 24_000);
    assert_eq!(dash_duration(&section), Ok(DashDuration::None));
    assert_eq!(effective_time(&section), Ok(EffectiveTime::None));
    assert_eq!(dvb(&section), Ok(Dvb::Yes));
    assert_eq!(bill_label(&section, HOUSE), Label::HouseName(HOUSE));
}

/// The end of a placement opportunity, the start of an overlap, the end of a program: no break opens.
#[test]
fn the_sections_of_002_clauses_14_3_14_5_and_14_7() {
    let samples = [
        (whole("002, 14.3"), 0x7462_90A0),
        (whole("002, 14.5"), 0xAEBF_FF64),
        (whole("002, 14.7"), 0xAEF1_7C4C),
    ];
    for (text, ticks) in samples {
        let section = sample(text);
        assert_eq!(break_answer(&section), Ok(Break::None));
        assert_eq!(dash_duration(&section), Ok(DashDuration::None));
        let at = EffectiveTime::At { ticks };
        assert_eq!(effective_time(&section), Ok(at));
        assert_eq!(dvb(&section), Ok(Dvb::Yes));
        let label = bill_label(&section, HOUSE);
        assert_eq!(label.bytes(), &section[35..43]);
    }
}
