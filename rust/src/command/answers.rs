//! What a command says, by case.

use crate::{EventId, Ticks};

/// A command (Table 7).
#[derive(Clone, Copy, Debug, PartialEq, Eq, Hash)]
pub enum Command {
    Null,
    /// Its events are asked by [`schedule_events`](crate::schedule_events).
    Schedule {
        splice_count: u8,
    },
    Insert(Insert),
    CancelledInsert {
        splice_event_id: EventId,
    },
    TimeSignal(SpliceTime),
    BandwidthReservation,
    /// Its bytes behind the identifier are asked by [`private_bytes`](crate::private_bytes).
    Private {
        identifier: u32,
        byte_count: usize,
    },
    /// Of a splice_command_type that the standard does not have.
    Unread,
}

/// A splice insert that is not cancelled (Table 10).
#[derive(Clone, Copy, Debug, PartialEq, Eq, Hash)]
pub struct Insert {
    pub splice_event_id: EventId,
    pub out_of_network_indicator: bool,
    /// That of an insert by components is never given, since each component has its own.
    pub time: SpliceTime,
    /// The components are asked by [`insert_components`](crate::insert_components).
    pub mode: Mode,
    pub avails: Avails,
}

/// When a splice takes place (Table 14).
#[derive(Clone, Copy, Debug, PartialEq, Eq, Hash)]
pub enum SpliceTime {
    Immediate,
    NotGiven,
    /// At this pts_time.
    Given(Ticks),
}

/// Whether the whole program is meant, or so many components.
#[derive(Clone, Copy, Debug, PartialEq, Eq, Hash)]
pub enum Mode {
    Program,
    Components { component_count: u8 },
}

/// How long the break lasts (Table 15). An absent duration is not one of 0 ticks.
#[derive(Clone, Copy, Debug, PartialEq, Eq, Hash)]
pub enum BreakDuration {
    Absent,
    Present { auto_return: bool, duration: Ticks },
}

/// The end of an insert and of a scheduled event (Tables 9 and 10).
#[derive(Clone, Copy, Debug, PartialEq, Eq, Hash)]
pub struct Avails {
    pub break_duration: BreakDuration,
    pub unique_program_id: u16,
    pub avail_num: u8,
    pub avails_expected: u8,
}

/// A component of a splice insert.
#[derive(Clone, Copy, Debug, PartialEq, Eq, Hash)]
pub struct InsertComponent {
    pub component_tag: u8,
    pub time: SpliceTime,
}

/// An event of a schedule (Table 9).
#[derive(Clone, Copy, Debug, PartialEq, Eq, Hash)]
pub enum Event {
    Scheduled(ScheduledEvent),
    Cancelled { splice_event_id: EventId },
}

/// An event of a schedule that is not cancelled.
#[derive(Clone, Copy, Debug, PartialEq, Eq, Hash)]
pub struct ScheduledEvent {
    pub splice_event_id: EventId,
    pub out_of_network_indicator: bool,
    pub time: EventTime,
    pub avails: Avails,
}

/// When an event of a schedule takes place (Table 9): the whole program at one utc_splice_time, or each
/// component at its own.
#[derive(Clone, Copy, Debug, PartialEq, Eq, Hash)]
pub enum EventTime {
    Program {
        utc_splice_time: u32,
    },
    /// They are asked by [`event_components`](crate::event_components).
    Components {
        component_count: u8,
    },
}

/// A component of a schedule's event.
#[derive(Clone, Copy, Debug, PartialEq, Eq, Hash)]
pub struct EventComponent {
    pub component_tag: u8,
    pub utc_splice_time: u32,
}
