//! Every case of the command, the components of inserts and the bytes of private commands.

use super::*;

fn reads(kind: &str, body: &str, expected: Command, list: &[u64]) {
    let section = with_command(kind, body);
    assert_eq!(command(&section), Ok(expected));
    assert_eq!(flat(command(&section)).as_deref(), Ok(list));
}

/// An insert of the program, immediate, without duration.
fn plain_insert() -> Insert {
    Insert {
        splice_event_id: 9,
        out_of_network_indicator: false,
        time: Time::Immediate,
        mode: Mode::Program,
        break_duration: None,
        unique_program_id: 0x0102,
        avail_num: 3,
        avails_expected: 4,
    }
}

#[test]
fn commands_without_fields() {
    reads("00", "", Command::Null, &[0]);
    reads("07", "", Command::BandwidthReservation, &[5]);
    for kind in ["01", "02", "03", "08", "FE", "A5"] {
        reads(kind, "", Command::Unread, &[7]);
        reads(kind, "00000009 7F D0 0102 03 04", Command::Unread, &[7]);
    }
}

#[test]
fn a_length_left_open_reads_the_same() {
    assert_eq!(command(&section(0xFFF, "00 0000")), Ok(Command::Null));
    let given = Command::TimeSignal(Time::Given(5));
    assert_eq!(command(&section(0xFFF, "06 8000000005 0000")), Ok(given));
}

#[test]
fn time_signals() {
    let signal = Command::TimeSignal;
    reads("06", "7F", signal(Time::NotGiven), &[4, 1]);
    reads("06", "00", signal(Time::NotGiven), &[4, 1]);
    reads("06", "8000000000", signal(Time::Given(0)), &[4, 2, 0]);
    // The reserved bits do not show, and all 33 bits of the time do.
    let last = (1 << 33) - 1;
    reads("06", "81FFFFFFFF", signal(Time::Given(last)), &[4, 2, last]);
    reads("06", "FFFFFFFFFF", signal(Time::Given(last)), &[4, 2, last]);
}

#[test]
fn a_cancelled_insert_has_its_id_only() {
    let cancelled = |splice_event_id| Command::CancelledInsert { splice_event_id };
    reads("05", "00000009 80", cancelled(9), &[3, 9]);
    let last = u32::MAX;
    reads("05", "FFFFFFFF FF", cancelled(last), &[3, last.into()]);
    let section = with_command("05", "00000009 80");
    no_list(|n| insert_component(&section, n));
}

#[test]
fn inserts_of_the_program() {
    let insert = Command::Insert(plain_insert());
    let list = [2, 9, 0, 0, 0, 0, 0x0102, 3, 4];
    reads("05", "00000009 00 50 0102 03 04", insert.clone(), &list);
    reads("05", "00000009 7F 5F 0102 03 04", insert, &list);

    let insert = Command::Insert(Insert {
        out_of_network_indicator: true,
        time: Time::NotGiven,
        ..plain_insert()
    });
    let list = [2, 9, 1, 1, 0, 0, 0x0102, 3, 4];
    reads("05", "00000009 7F CF 7F 0102 03 04", insert, &list);

    let insert = Command::Insert(Insert {
        time: Time::Given((1 << 32) + 5),
        break_duration: Some(BreakDuration {
            auto_return: true,
            duration: (1 << 32) + 6,
        }),
        ..plain_insert()
    });
    let list = [
        2,
        9,
        0,
        2,
        (1 << 32) + 5,
        0,
        1,
        1,
        (1 << 32) + 6,
        0x0102,
        3,
        4,
    ];
    let body = "00000009 7F 6F FF00000005 FF00000006 0102 03 04";
    reads("05", body, insert, &list);
    let section = with_command("05", body);
    no_list(|n| insert_component(&section, n));
}

#[test]
fn a_duration_of_0_is_there() {
    let insert = Command::Insert(Insert {
        break_duration: Some(BreakDuration {
            auto_return: false,
            duration: 0,
        }),
        ..plain_insert()
    });
    let list = [2, 9, 0, 0, 0, 1, 0, 0, 0x0102, 3, 4];
    reads("05", "00000009 7F 70 7E00000000 0102 03 04", insert, &list);
}

#[test]
fn a_component_insert_that_is_immediate() {
    let insert = Command::Insert(Insert {
        mode: Mode::Components { component_count: 2 },
        ..plain_insert()
    });
    let body = "00000009 7F 1F 02 AA BB 0102 03 04";
    reads("05", body, insert, &[2, 9, 0, 0, 1, 2, 0, 0x0102, 3, 4]);
    let section = with_command("05", body);
    lists(|n| insert_component(&section, n), &[&[0xAA, 0], &[0xBB, 0]]);
}

#[test]
fn a_component_insert_with_times() {
    let insert = Command::Insert(Insert {
        time: Time::NotGiven,
        mode: Mode::Components { component_count: 3 },
        break_duration: Some(BreakDuration {
            auto_return: true,
            duration: 7,
        }),
        ..plain_insert()
    });
    let list = [2, 9, 0, 1, 1, 3, 1, 1, 7, 0x0102, 3, 4];
    let body = "00000009 7F 2F 03 AA FE00000006 BB 7F CC 8100000000 8000000007 0102 03 04";
    reads("05", body, insert, &list);
    let section = with_command("05", body);
    let components: [&[u64]; 3] = [&[0xAA, 2, 6], &[0xBB, 1], &[0xCC, 2, 1 << 32]];
    lists(|n| insert_component(&section, n), &components);
    let second = InsertComponent {
        component_tag: 0xBB,
        time: Time::NotGiven,
    };
    assert_eq!(insert_component(&section, 1), Ok(second));
}

#[test]
fn a_component_insert_of_no_components() {
    for (flags, time, case) in [("00", Time::NotGiven, 1), ("10", Time::Immediate, 0)] {
        let insert = Command::Insert(Insert {
            time,
            mode: Mode::Components { component_count: 0 },
            ..plain_insert()
        });
        let body = format!("00000009 7F {flags} 00 0102 03 04");
        reads("05", &body, insert, &[2, 9, 0, case, 1, 0, 0, 0x0102, 3, 4]);
        let section = with_command("05", &body);
        no_list(|n| insert_component(&section, n));
    }
}

#[test]
fn an_insert_of_255_components() {
    let tags: String = (0..255).map(|tag| format!("{tag:02x}")).collect();
    let section = with_command("05", &format!("00000009 7F 10 FF {tags} 0102 03 04"));
    let expected: Vec<[u64; 2]> = (0..255).map(|tag| [tag, 0]).collect();
    let expected: Vec<&[u64]> = expected.iter().map(|list| list.as_slice()).collect();
    lists(|n| insert_component(&section, n), &expected);
}

#[test]
fn private_commands() {
    let private = |byte_count| Command::Private {
        identifier: 0x4142_4344,
        byte_count,
    };
    reads("FF", "41424344", private(0), &[6, 0x4142_4344, 0]);
    let section = with_command("FF", "41424344");
    no_list(|n| private_byte(&section, n));

    reads("FF", "41424344 00FF7F", private(3), &[6, 0x4142_4344, 3]);
    let section = with_command("FF", "41424344 00FF7F");
    lists(|n| private_byte(&section, n), &[&[0], &[0xFF], &[0x7F]]);
    no_list(|n| insert_component(&section, n));
    no_list(|n| event(&section, n));
}

#[test]
fn the_longest_private_command() {
    // 4,096 bytes less 13, type, identifier, descriptor_loop_length and CRC.
    let body = format!("41424344 {}", "5A".repeat(4072));
    let section = with_command("FF", &body);
    assert_eq!(section.len(), 4096);
    assert_eq!(flat(command(&section)), Ok(vec![6, 0x4142_4344, 4072]));
    assert_eq!(private_byte(&section, 4071), Ok(0x5A));
    assert_eq!(private_byte(&section, 4072), Err(NOTHERE));
}

#[test]
fn other_commands_have_no_lists() {
    for (kind, body) in [("00", ""), ("06", "7F"), ("07", ""), ("A5", "0102030405")] {
        let section = with_command(kind, body);
        no_list(|n| insert_component(&section, n));
        no_list(|n| event(&section, n));
        no_list(|n| event_component(&section, n, 0));
        no_list(|n| private_byte(&section, n));
    }
}
