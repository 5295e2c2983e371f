//! The events of a schedule, and their components.

use super::entries::{Entries, Reading};
use super::time::BreakDuration;
use super::{at, count};
use crate::section::{self, Apart};

#[derive(Clone, Debug, PartialEq, Eq)]
pub enum Event {
    Scheduled(ScheduledEvent),
    Cancelled { splice_event_id: u32 },
}

#[derive(Clone, Debug, PartialEq, Eq)]
pub struct ScheduledEvent {
    pub splice_event_id: u32,
    pub out_of_network_indicator: bool,
    pub mode: EventMode,
    pub break_duration: Option<BreakDuration>,
    pub unique_program_id: u16,
    pub avail_num: u8,
    pub avails_expected: u8,
}

/// What is spliced: the program at its time, or components that have a time each.
#[derive(Clone, Copy, Debug, PartialEq, Eq)]
pub enum EventMode {
    Program { utc_splice_time: u32 },
    Components { component_count: u64 },
}

#[derive(Clone, Debug, PartialEq, Eq)]
pub struct EventComponent {
    pub component_tag: u8,
    pub utc_splice_time: u32,
}

impl Apart<'_> {
    /// Event `n` of a schedule.
    pub fn event(&self, n: u64) -> Result<Event, u8> {
        let command = &self.clear()?.command;
        at(events(command), n).map(Event::of)
    }

    /// Component `m` of event `n` of a schedule.
    pub fn event_component(&self, n: u64, m: u64) -> Result<EventComponent, u8> {
        let command = &self.clear()?.command;
        let event = at(events(command), n)?;
        at(components(event), m).map(EventComponent::of)
    }
}

/// The events of the command, none where it is no schedule.
fn events(command: &section::Command) -> &[section::Event] {
    match command {
        section::Command::SpliceSchedule(schedule) => &schedule.events,
        _ => &[],
    }
}

/// The components of an event, none where it is cancelled or of the program.
fn components(event: &section::Event) -> &[section::EventComponent] {
    let splicing = event.splicing.as_ref();
    splicing
        .and_then(|splicing| splicing.components.as_deref())
        .unwrap_or(&[])
}

impl Event {
    fn of(read: &section::Event) -> Event {
        let splice_event_id = read.splice_event_id;
        match &read.splicing {
            None => Event::Cancelled { splice_event_id },
            Some(splicing) => Event::Scheduled(ScheduledEvent::of(splice_event_id, splicing)),
        }
    }
}

impl ScheduledEvent {
    fn of(splice_event_id: u32, splicing: &section::EventSplicing) -> ScheduledEvent {
        let mode = match splicing.utc_splice_time {
            Some(utc_splice_time) => EventMode::Program { utc_splice_time },
            None => EventMode::Components {
                component_count: count(splicing.components.as_deref().unwrap_or(&[])),
            },
        };
        ScheduledEvent {
            splice_event_id,
            out_of_network_indicator: splicing.out_of_network_indicator,
            mode,
            break_duration: splicing.break_duration.as_ref().map(BreakDuration::of),
            unique_program_id: splicing.unique_program_id,
            avail_num: splicing.avail_num,
            avails_expected: splicing.avails_expected,
        }
    }
}

impl EventComponent {
    fn of(read: &section::EventComponent) -> EventComponent {
        EventComponent {
            component_tag: read.component_tag,
            utc_splice_time: read.utc_splice_time,
        }
    }
}

impl Reading for Event {
    fn list(&self, to: &mut Entries) {
        match self {
            Event::Scheduled(event) => {
                to.case("event", "event", 0);
                event.list(to);
            }
            Event::Cancelled { splice_event_id } => {
                to.case("event", "cancelled event", 1);
                to.value("splice_event_id", *splice_event_id);
            }
        }
    }
}

impl Reading for ScheduledEvent {
    fn list(&self, to: &mut Entries) {
        to.value("splice_event_id", self.splice_event_id);
        to.value("out_of_network_indicator", self.out_of_network_indicator);
        self.mode.list(to);
        to.optional("break_duration", &self.break_duration, |to, it| it.list(to));
        to.value("unique_program_id", self.unique_program_id);
        to.value("avail_num", self.avail_num);
        to.value("avails_expected", self.avails_expected);
    }
}

impl Reading for EventMode {
    fn list(&self, to: &mut Entries) {
        match self {
            EventMode::Program { utc_splice_time } => {
                to.case("event mode", "program", 0);
                to.value("utc_splice_time", *utc_splice_time);
            }
            EventMode::Components { component_count } => {
                to.case("event mode", "components", 1);
                to.value("component_count", *component_count);
            }
        }
    }
}

impl Reading for EventComponent {
    fn list(&self, to: &mut Entries) {
        to.value("component_tag", self.component_tag);
        to.value("utc_splice_time", self.utc_splice_time);
    }
}
