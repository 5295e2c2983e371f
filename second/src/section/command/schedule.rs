//! splice_schedule(), table 9.

use crate::section::cursor::Cursor;
use crate::section::items::Items;
use crate::section::time::BreakDuration;

#[derive(Clone, Debug, PartialEq, Eq)]
pub struct SpliceSchedule {
    pub events: Vec<Event>,
}

#[derive(Clone, Debug, PartialEq, Eq)]
pub struct Event {
    pub splice_event_id: u32,
    pub splice_event_cancel_indicator: bool,
    pub reserved: u8,
    /// There exactly when the event is not cancelled.
    pub splicing: Option<EventSplicing>,
}

#[derive(Clone, Debug, PartialEq, Eq)]
pub struct EventSplicing {
    pub out_of_network_indicator: bool,
    pub program_splice_flag: bool,
    pub duration_flag: bool,
    pub reserved: u8,
    /// There exactly when the splice is of the program.
    pub utc_splice_time: Option<u32>,
    /// There exactly when it is not.
    pub components: Option<Vec<EventComponent>>,
    /// There exactly when duration_flag is 1.
    pub break_duration: Option<BreakDuration>,
    pub unique_program_id: u16,
    pub avail_num: u8,
    pub avails_expected: u8,
}

#[derive(Clone, Debug, PartialEq, Eq)]
pub struct EventComponent {
    pub component_tag: u8,
    pub utc_splice_time: u32,
}

impl SpliceSchedule {
    pub fn read(from: &mut Cursor) -> Option<SpliceSchedule> {
        let splice_count = from.take(8)?;
        let events = from.list(splice_count, Event::read)?;
        Some(SpliceSchedule { events })
    }

    pub fn list(&self, to: &mut Items) {
        to.group("splice_schedule()", |to| {
            to.count("splice_count", 8, &self.events);
            for event in &self.events {
                event.list(to);
            }
        });
    }
}

impl Event {
    fn read(from: &mut Cursor) -> Option<Event> {
        let splice_event_id = from.take(32)?;
        let splice_event_cancel_indicator = from.flag()?;
        let reserved = from.take(7)?;
        let splicing = if splice_event_cancel_indicator {
            None
        } else {
            Some(EventSplicing::read(from)?)
        };
        Some(Event {
            splice_event_id,
            splice_event_cancel_indicator,
            reserved,
            splicing,
        })
    }

    fn list(&self, to: &mut Items) {
        to.group("event", |to| {
            let cancelled = self.splice_event_cancel_indicator;
            to.number("splice_event_id", 32, self.splice_event_id);
            to.number("splice_event_cancel_indicator", 1, cancelled);
            to.number("reserved", 7, self.reserved);
            if let Some(splicing) = &self.splicing {
                splicing.list(to);
            }
        });
    }
}

impl EventSplicing {
    fn read(from: &mut Cursor) -> Option<EventSplicing> {
        let out_of_network_indicator = from.flag()?;
        let program_splice_flag = from.flag()?;
        let duration_flag = from.flag()?;
        let reserved = from.take(5)?;
        let mut utc_splice_time = None;
        let mut components = None;
        if program_splice_flag {
            utc_splice_time = Some(from.take(32)?);
        } else {
            let component_count = from.take(8)?;
            components = Some(from.list(component_count, EventComponent::read)?);
        }
        let mut break_duration = None;
        if duration_flag {
            break_duration = Some(BreakDuration::read(from)?);
        }
        Some(EventSplicing {
            out_of_network_indicator,
            program_splice_flag,
            duration_flag,
            reserved,
            utc_splice_time,
            components,
            break_duration,
            unique_program_id: from.take(16)?,
            avail_num: from.take(8)?,
            avails_expected: from.take(8)?,
        })
    }

    fn list(&self, to: &mut Items) {
        to.number("out_of_network_indicator", 1, self.out_of_network_indicator);
        to.number("program_splice_flag", 1, self.program_splice_flag);
        to.number("duration_flag", 1, self.duration_flag);
        to.number("reserved", 5, self.reserved);
        if let Some(utc_splice_time) = self.utc_splice_time {
            to.number("utc_splice_time", 32, utc_splice_time);
        }
        if let Some(components) = &self.components {
            to.count("component_count", 8, components);
            for component in components {
                component.list(to);
            }
        }
        if let Some(break_duration) = &self.break_duration {
            break_duration.list(to);
        }
        to.number("unique_program_id", 16, self.unique_program_id);
        to.number("avail_num", 8, self.avail_num);
        to.number("avails_expected", 8, self.avails_expected);
    }
}

impl EventComponent {
    fn read(from: &mut Cursor) -> Option<EventComponent> {
        Some(EventComponent {
            component_tag: from.take(8)?,
            utc_splice_time: from.take(32)?,
        })
    }

    fn list(&self, to: &mut Items) {
        to.group("component", |to| {
            to.number("component_tag", 8, self.component_tag);
            to.number("utc_splice_time", 32, self.utc_splice_time);
        });
    }
}
