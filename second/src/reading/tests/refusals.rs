//! The order of refusals: rows 1 to 10, then SEALED, then NOTHERE, at every question.

use super::*;
use crate::made::finished;
use crate::refusal::{
    COMMAND, CRC, CRYPT, DESCRIPTOR, LOOP, SEALED, SHORT, SIZE, SYNTAX, TABLE, VERSION,
};

/// The refusal of every question, asked with small numbers and with numbers past any count.
fn refused(section: &[u8], expected: u8) {
    assert_eq!(command(section), Err(expected));
    assert_eq!(descriptor_count(section), Err(expected));
    for n in [0, 1, 2].into_iter().chain(FAR) {
        assert_eq!(insert_component(section, n), Err(expected));
        assert_eq!(event(section, n), Err(expected));
        assert_eq!(private_byte(section, n), Err(expected));
        assert_eq!(descriptor(section, n), Err(expected));
        assert_eq!(upid(section, n), Err(expected));
        for m in [0, 1].into_iter().chain(FAR) {
            assert_eq!(event_component(section, n, m), Err(expected));
            assert_eq!(dtmf_char(section, n, m), Err(expected));
            assert_eq!(segmentation_component(section, n, m), Err(expected));
            assert_eq!(audio_component(section, n, m), Err(expected));
        }
    }
}

#[test]
fn rows_1_to_6_come_first() {
    let section = with_command("00", "");
    refused(&[], SHORT);
    refused(&section[..19], SHORT);
    for sealed_too in [0, 0x80] {
        let changed = |place: usize, bits: u8| {
            let mut section = section.clone();
            section[4] |= sealed_too;
            section[place] ^= bits;
            section
        };
        refused(&changed(0, 1), TABLE);
        refused(&changed(1, 0x80), SYNTAX);
        refused(&changed(1, 0x40), SYNTAX);
        refused(&changed(2, 1), SIZE);
        refused(&changed(13, 1), CRC);
        let mut version = changed(3, 1);
        version.truncate(16);
        refused(&finished(version), VERSION);
    }
}

#[test]
fn row_7_comes_before_sealed() {
    let mut section = with_command("A5", "010203");
    assert_eq!(section.len(), 23);
    section.truncate(19);
    section[4] |= 0x80;
    refused(&finished(section), CRYPT);
}

#[test]
fn rows_8_to_10_come_before_nothere() {
    refused(&section(1, "00 0000"), COMMAND);
    refused(&section(0, "00 0001"), LOOP);
    refused(&section(0, "00 0001 00"), DESCRIPTOR);
    // A command that reads well, and a descriptor behind it that does not.
    refused(&section(5, "05 00000009 80 0006 0004 43554549"), DESCRIPTOR);
    // A known descriptor that reads well, and one behind it that does not.
    let loop_of_two = "00 0010 0008 43554549 00000001 0004 43554549";
    refused(&section(0, loop_of_two), DESCRIPTOR);
}

#[test]
fn sealed_comes_before_nothere() {
    refused(&sealed(), SEALED);
    // The same inside is read where it is not sealed.
    let mut clear = sealed();
    clear.truncate(clear.len() - 4);
    clear[4] &= 0x7F;
    let clear = finished(clear);
    assert_eq!(command(&clear), Ok(Command::TimeSignal(Time::NotGiven)));
    assert_eq!(descriptor_count(&clear), Ok(1));
    assert_eq!(upid(&clear, 0).unwrap().bytes, []);
}

#[test]
fn nothing_inside_a_sealed_section_is_looked_at() {
    // Rows 8 to 10 would refuse this.
    let mut section = section(0xABC, &"FF".repeat(7));
    section.truncate(20);
    section[4] |= 0x80;
    refused(&finished(section), SEALED);
}
