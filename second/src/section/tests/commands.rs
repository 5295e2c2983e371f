//! Each command's grammar, its length stated, left open and stated wrongly.

use super::*;
use crate::refusal::{COMMAND, LOOP};

/// The command is read with the right length, with none, and with no other; and its section's
/// fields make its bytes again.
fn has_length(length: u16, kind: &str, bytes: &str) {
    let inside = format!("{kind} {bytes} 0000");
    assert_eq!(row(0xFFF, &inside), 0, "{inside}");
    for stated in (0..100).chain([0xFFE]) {
        let expected = if stated == length { 0 } else { COMMAND };
        assert_eq!(row(stated, &inside), expected, "{stated} {inside}");
    }
    for stated in [length, 0xFFF] {
        let bytes = section(stated, &inside);
        assert_eq!(written_back(&accept(&bytes).unwrap()), bytes);
    }
}

#[test]
fn empty_commands() {
    has_length(0, "00", "");
    has_length(0, "07", "");
    assert_eq!(command(0, "00 0000"), Command::SpliceNull);
    assert_eq!(command(0xFFF, "07 0000"), Command::BandwidthReservation);
}

#[test]
fn time_signals() {
    has_length(5, "06", "FF FFFFFFFF");
    has_length(5, "06", "80 00000000");
    has_length(1, "06", "7F");
    has_length(1, "06", "00");
    let Command::TimeSignal(time) = command(5, "06 8300000002 0000") else {
        panic!("another command");
    };
    assert_eq!((time.reserved, time.pts_time), (1, Some((1 << 32) + 2)));
}

#[test]
fn inserts() {
    // Cancelled.
    has_length(5, "05", "00000001 FF");
    has_length(5, "05", "00000001 80");
    // Of the program: immediate, time not given, time given, each without and with duration.
    has_length(10, "05", "00000001 7F DF 0001 02 03");
    has_length(11, "05", "00000001 7F CF 7F 0001 02 03");
    has_length(15, "05", "00000001 7F CF FE00000000 0001 02 03");
    has_length(15, "05", "00000001 7F FF FF00000000 0001 02 03");
    has_length(20, "05", "00000001 7F EF FE00000000 7E00000000 0001 02 03");
    // Of components: none, two immediate, two timed.
    has_length(11, "05", "00000001 00 00 00 0001 02 03");
    has_length(13, "05", "00000001 00 10 02 AA BB 0001 02 03");
    has_length(19, "05", "00000001 00 00 02 AA FE00000000 BB 7F 0001 02 03");
    has_length(
        24,
        "05",
        "00000001 00 20 02 AA 00 BB 8000000000 FF00000000 0001 02 03",
    );
}

#[test]
fn schedules() {
    has_length(1, "04", "00");
    has_length(11, "04", "02 00000001 FF 00000002 80");
    has_length(15, "04", "01 00000001 7F DF 11111111 0001 02 03");
    has_length(20, "04", "01 00000001 7F FF 11111111 FF00000000 0001 02 03");
    has_length(12, "04", "01 00000001 7F 9F 00 0001 02 03");
    has_length(
        22,
        "04",
        "01 00000001 00 00 02 AA 11111111 BB 22222222 0001 02 03",
    );
    has_length(
        20,
        "04",
        "02 00000002 80 00000001 7F 5F 11111111 0001 02 03",
    );
}

#[test]
fn private_commands_are_four_bytes_or_more() {
    for stated in 0..9 {
        let expected = if stated < 4 { COMMAND } else { 0 };
        assert_eq!(row(stated, "FF 41424344 00000000 0000000000"), expected);
    }
    assert_eq!(row(0xFFF, "FF 41424344 0000"), COMMAND);
    let private = PrivateCommand {
        identifier: 0x4142_4344,
        private_bytes: vec![1, 2],
    };
    assert_eq!(
        command(6, "FF 41424344 0102 0000"),
        Command::Private(private)
    );
}

#[test]
fn unknown_commands_are_any_bytes() {
    assert_eq!(
        command(3, "01 010203 0000"),
        Command::Unknown(vec![1, 2, 3])
    );
    assert_eq!(command(0, "FE 0000"), Command::Unknown(vec![]));
    let known = [0x00, 0x04, 0x05, 0x06, 0x07, 0xFF];
    for kind in (0..=255).filter(|kind| !known.contains(kind)) {
        let kind = format!("{kind:02x}");
        assert_eq!(row(0, &format!("{kind} 0000")), 0);
        assert_eq!(row(1, &format!("{kind} 00 0000")), 0);
        assert_eq!(row(0xFFF, &format!("{kind} 0000")), COMMAND);
        assert_eq!(row(2, &format!("{kind} 0000")), LOOP);
    }
}

#[test]
fn a_count_that_runs_past_the_crc() {
    assert_eq!(row(0xFFF, "04 01 0000"), COMMAND);
    assert_eq!(row(0xFFF, "04 FF 0000000000 0000"), COMMAND);
    assert_eq!(
        row(0xFFF, "05 00000001 00 10 FF AA BB 0001 02 03 0000"),
        COMMAND
    );
}

#[test]
fn bits_that_002_names_and_01_calls_reserved() {
    let Command::SpliceInsert(insert) = command(0xFFF, "05 00000001 40 58 0001 02 03 0000") else {
        panic!("another command");
    };
    assert_eq!(insert.reserved, 0x40);
    assert_eq!(insert.splicing.unwrap().reserved, 0x8);
    let Command::SpliceSchedule(schedule) = command(0xFFF, "04 01 00000001 C0 0000") else {
        panic!("another command");
    };
    assert_eq!(schedule.events[0].reserved, 0x40);
}
