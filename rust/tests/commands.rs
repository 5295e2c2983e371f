//! Every command, and the lists inside it.

mod common;

use common::section;
use timpanimist::*;

/// splice_command_length left open.
const OPEN: u64 = 0xFFF;

fn avails(break_duration: BreakDuration) -> Avails {
    Avails {
        break_duration,
        unique_program_id: 1,
        avail_num: 2,
        avails_expected: 3,
    }
}

#[test]
fn commands_without_fields() {
    assert_eq!(command(&section(0, OPEN, &[], &[])), Ok(Command::Null));
    assert_eq!(
        command(&section(7, OPEN, &[], &[])),
        Ok(Command::BandwidthReservation)
    );
    assert_eq!(command(&section(9, 2, &[1, 2], &[])), Ok(Command::Unread));
}

#[test]
fn a_time_signal_without_a_time() {
    let section = section(6, OPEN, &[0, 127], &[]);
    assert_eq!(
        command(&section),
        Ok(Command::TimeSignal(SpliceTime::NotGiven))
    );
    assert_eq!(effective_time(&section), Ok(EffectiveTime::None));
}

#[test]
fn an_insert_of_the_program() {
    let numbers = [
        100, 0, 127, 1, 1, 1, 0, 15, 1, 63, 90_000, 1, 63, 2_700_000, 1, 2, 3,
    ];
    let section = section(5, OPEN, &numbers, &[]);
    let said = Insert {
        splice_event_id: EventId(100),
        out_of_network_indicator: true,
        time: SpliceTime::Given(Ticks(90_000)),
        mode: Mode::Program,
        avails: avails(BreakDuration::Present {
            auto_return: true,
            duration: Ticks(2_700_000),
        }),
    };
    assert_eq!(command(&section), Ok(Command::Insert(said)));
    assert_eq!(
        break_answer(&section),
        Ok(Break::Measured(Ticks(2_700_000)))
    );
}

#[test]
fn an_insert_by_components() {
    let numbers = [
        100, 0, 127, 1, 0, 0, 0, 15, 2, 7, 1, 63, 90_000, 8, 0, 127, 1, 2, 3,
    ];
    let section = section(5, OPEN, &numbers, &[]);
    let said = Insert {
        splice_event_id: EventId(100),
        out_of_network_indicator: true,
        time: SpliceTime::NotGiven,
        mode: Mode::Components { component_count: 2 },
        avails: avails(BreakDuration::Absent),
    };
    assert_eq!(command(&section), Ok(Command::Insert(said)));
    let components: Vec<_> = insert_components(&section).unwrap().collect();
    let first = InsertComponent {
        component_tag: 7,
        time: SpliceTime::Given(Ticks(90_000)),
    };
    let second = InsertComponent {
        component_tag: 8,
        time: SpliceTime::NotGiven,
    };
    assert_eq!(components, [first, second]);
    assert_eq!(insert_component(&section, 1), Ok(second));
    assert_eq!(insert_component(&section, 2), Err(Refusal::NotHere));
    assert_eq!(break_answer(&section), Ok(Break::Unmeasured));
}

#[test]
fn an_immediate_insert_by_components() {
    let section = section(5, OPEN, &[100, 0, 127, 0, 0, 0, 1, 15, 1, 7, 1, 2, 3], &[]);
    let immediate = InsertComponent {
        component_tag: 7,
        time: SpliceTime::Immediate,
    };
    assert_eq!(
        insert_components(&section).unwrap().collect::<Vec<_>>(),
        [immediate]
    );
    assert_eq!(break_answer(&section), Ok(Break::None));
}

#[test]
fn a_cancelled_insert() {
    let section = section(5, OPEN, &[100, 1, 127], &[]);
    let said = Command::CancelledInsert {
        splice_event_id: EventId(100),
    };
    assert_eq!(command(&section), Ok(said));
}

#[test]
fn a_schedule() {
    let program = [200, 0, 127, 1, 1, 1, 31, 1_400_000_000, 0, 63, 90, 1, 2, 3];
    let components = [201, 0, 127, 0, 0, 0, 31, 1, 7, 1_400_000_001, 1, 2, 3];
    let cancelled = [202, 1, 127];
    let numbers = [&[3], &program[..], &components, &cancelled].concat();
    let section = section(4, OPEN, &numbers, &[]);
    assert_eq!(command(&section), Ok(Command::Schedule { splice_count: 3 }));
    let events: Vec<_> = schedule_events(&section).unwrap().collect();
    assert_eq!(events, events_of_the_schedule());
    assert_eq!(schedule_event(&section, 3), Err(Refusal::NotHere));
    let component = EventComponent {
        component_tag: 7,
        utc_splice_time: 1_400_000_001,
    };
    assert_eq!(
        event_components(&section, 1).unwrap().collect::<Vec<_>>(),
        [component]
    );
    assert_eq!(event_component(&section, 0, 0), Err(Refusal::NotHere));
}

fn events_of_the_schedule() -> [Event; 3] {
    let duration = BreakDuration::Present {
        auto_return: false,
        duration: Ticks(90),
    };
    [
        Event::Scheduled(ScheduledEvent {
            splice_event_id: EventId(200),
            out_of_network_indicator: true,
            time: EventTime::Program {
                utc_splice_time: 1_400_000_000,
            },
            avails: avails(duration),
        }),
        Event::Scheduled(ScheduledEvent {
            splice_event_id: EventId(201),
            out_of_network_indicator: false,
            time: EventTime::Components { component_count: 1 },
            avails: avails(BreakDuration::Absent),
        }),
        Event::Cancelled {
            splice_event_id: EventId(202),
        },
    ]
}

#[test]
fn a_private_command() {
    let section = section(255, 7, &[0x5449_4D50, 1, 2, 255], &[]);
    let said = Command::Private {
        identifier: 0x5449_4D50,
        byte_count: 3,
    };
    assert_eq!(command(&section), Ok(said));
    assert_eq!(
        private_bytes(&section).unwrap().collect::<Vec<_>>(),
        [1, 2, 255]
    );
    assert_eq!(private_byte(&section, 3), Err(Refusal::NotHere));
}
