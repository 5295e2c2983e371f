//! Schedules, their events, and the components of these.

use super::*;

/// Five events: cancelled, of the program without and with duration, of two components, of none.
const EVENTS: &str = "05
    00000001 FF
    00000002 7F DF 01020304 0002 03 04
    00000003 00 60 FFFFFFFF FF00000000 0003 04 05
    00000004 7F 20 02 AA 00000001 BB FFFFFFFF 0000000000 0004 05 06
    00000005 7F 9F 00 FFFF FF FF";

fn schedule() -> Vec<u8> {
    with_command("04", &EVENTS.replace('\n', ""))
}

#[test]
fn the_command_tells_the_count() {
    let schedule_of = |splice_count| Ok(Command::Schedule { splice_count });
    assert_eq!(command(&schedule()), schedule_of(5));
    assert_eq!(flat(command(&schedule())), Ok(vec![1, 5]));
    let empty = with_command("04", "00");
    assert_eq!(command(&empty), schedule_of(0));
    assert_eq!(flat(command(&empty)), Ok(vec![1, 0]));
    no_list(|n| event(&empty, n));
    no_list(|n| event_component(&empty, n, 0));
}

#[test]
fn events_by_number() {
    let expected: [&[u64]; 5] = [
        &[1, 1],
        &[0, 2, 1, 0, 0x0102_0304, 0, 2, 3, 4],
        &[0, 3, 0, 0, 0xFFFF_FFFF, 1, 1, 1 << 32, 3, 4, 5],
        &[0, 4, 0, 1, 2, 1, 0, 0, 4, 5, 6],
        &[0, 5, 1, 1, 0, 0, 0xFFFF, 255, 255],
    ];
    lists(|n| event(&schedule(), n), &expected);
}

#[test]
fn events_have_their_fields() {
    let cancelled = Event::Cancelled { splice_event_id: 1 };
    assert_eq!(event(&schedule(), 0), Ok(cancelled));
    let of_the_program = ScheduledEvent {
        splice_event_id: 2,
        out_of_network_indicator: true,
        mode: EventMode::Program {
            utc_splice_time: 0x0102_0304,
        },
        break_duration: None,
        unique_program_id: 2,
        avail_num: 3,
        avails_expected: 4,
    };
    let expected = Event::Scheduled(of_the_program);
    assert_eq!(event(&schedule(), 1), Ok(expected));
    let of_components = ScheduledEvent {
        splice_event_id: 4,
        out_of_network_indicator: false,
        mode: EventMode::Components { component_count: 2 },
        break_duration: Some(BreakDuration {
            auto_return: false,
            duration: 0,
        }),
        unique_program_id: 4,
        avail_num: 5,
        avails_expected: 6,
    };
    let expected = Event::Scheduled(of_components);
    assert_eq!(event(&schedule(), 3), Ok(expected));
}

#[test]
fn components_of_events() {
    let section = schedule();
    for n in [0, 1, 2, 4, 5, 6, 7].into_iter().chain(FAR) {
        no_list(|m| event_component(&section, n, m));
    }
    let expected: [&[u64]; 2] = [&[0xAA, 1], &[0xBB, 0xFFFF_FFFF]];
    lists(|m| event_component(&section, 3, m), &expected);
    let first = EventComponent {
        component_tag: 0xAA,
        utc_splice_time: 1,
    };
    assert_eq!(event_component(&section, 3, 0), Ok(first));
}

#[test]
fn a_schedule_has_no_other_list() {
    no_list(|n| insert_component(&schedule(), n));
    no_list(|n| private_byte(&schedule(), n));
}

#[test]
fn a_schedule_of_255_events() {
    let events: String = (0..255).map(|id| format!("{id:08x} 80")).collect();
    let section = with_command("04", &format!("FF {events}"));
    assert_eq!(flat(command(&section)), Ok(vec![1, 255]));
    let expected: Vec<[u64; 2]> = (0..255).map(|id| [1, id]).collect();
    let expected: Vec<&[u64]> = expected.iter().map(|list| list.as_slice()).collect();
    lists(|n| event(&section, n), &expected);
}
