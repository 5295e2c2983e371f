//! splice_insert(), table 10, with the splice_time() that the printed table has lost.

use crate::section::cursor::Cursor;
use crate::section::items::Items;
use crate::section::time::{BreakDuration, SpliceTime};

#[derive(Clone, Debug, PartialEq, Eq)]
pub struct SpliceInsert {
    pub splice_event_id: u32,
    pub splice_event_cancel_indicator: bool,
    pub reserved: u8,
    /// There exactly when the event is not cancelled.
    pub splicing: Option<Splicing>,
}

#[derive(Clone, Debug, PartialEq, Eq)]
pub struct Splicing {
    pub out_of_network_indicator: bool,
    pub program_splice_flag: bool,
    pub duration_flag: bool,
    pub splice_immediate_flag: bool,
    pub reserved: u8,
    /// There exactly when the splice is of the program and not immediate.
    pub splice_time: Option<SpliceTime>,
    /// There exactly when the splice is not of the program.
    pub components: Option<Vec<InsertComponent>>,
    /// There exactly when duration_flag is 1.
    pub break_duration: Option<BreakDuration>,
    pub unique_program_id: u16,
    pub avail_num: u8,
    pub avails_expected: u8,
}

#[derive(Clone, Debug, PartialEq, Eq)]
pub struct InsertComponent {
    pub component_tag: u8,
    /// There exactly when the splice is not immediate.
    pub splice_time: Option<SpliceTime>,
}

impl SpliceInsert {
    pub fn read(from: &mut Cursor) -> Option<SpliceInsert> {
        let splice_event_id = from.take(32)?;
        let splice_event_cancel_indicator = from.flag()?;
        let reserved = from.take(7)?;
        let splicing = if splice_event_cancel_indicator {
            None
        } else {
            Some(Splicing::read(from)?)
        };
        Some(SpliceInsert {
            splice_event_id,
            splice_event_cancel_indicator,
            reserved,
            splicing,
        })
    }

    pub fn list(&self, to: &mut Items) {
        to.group("splice_insert()", |to| {
            let cancelled = self.splice_event_cancel_indicator;
            to.number("splice_event_id", 32, self.splice_event_id);
            to.number("splice_event_cancel_indicator", 1, cancelled);
            to.number("reserved", 7, self.reserved);
            if let Some(splicing) = &self.splicing {
                splicing.list(to);
            }
        });
    }
}

impl Splicing {
    fn read(from: &mut Cursor) -> Option<Splicing> {
        let out_of_network_indicator = from.flag()?;
        let program_splice_flag = from.flag()?;
        let duration_flag = from.flag()?;
        let splice_immediate_flag = from.flag()?;
        let reserved = from.take(4)?;
        let mut splice_time = None;
        if program_splice_flag && !splice_immediate_flag {
            splice_time = Some(SpliceTime::read(from)?);
        }
        let mut components = None;
        if !program_splice_flag {
            let component_count = from.take(8)?;
            let read = if splice_immediate_flag {
                InsertComponent::read_immediate
            } else {
                InsertComponent::read_timed
            };
            components = Some(from.list(component_count, read)?);
        }
        let mut break_duration = None;
        if duration_flag {
            break_duration = Some(BreakDuration::read(from)?);
        }
        Some(Splicing {
            out_of_network_indicator,
            program_splice_flag,
            duration_flag,
            splice_immediate_flag,
            reserved,
            splice_time,
            components,
            break_duration,
            unique_program_id: from.take(16)?,
            avail_num: from.take(8)?,
            avails_expected: from.take(8)?,
        })
    }

    fn list(&self, to: &mut Items) {
        to.number("out_of_network_indicator", 1, self.out_of_network_indicator);
        to.number("program_splice_flag", 1, self.program_splice_flag);
        to.number("duration_flag", 1, self.duration_flag);
        to.number("splice_immediate_flag", 1, self.splice_immediate_flag);
        to.number("reserved", 4, self.reserved);
        if let Some(splice_time) = &self.splice_time {
            splice_time.list(to);
        }
        if let Some(components) = &self.components {
            to.count("component_count", 8, components);
            for component in components {
                component.list(to);
            }
        }
        if let Some(break_duration) = &self.break_duration {
            break_duration.list(to);
        }
        to.number("unique_program_id", 16, self.unique_program_id);
        to.number("avail_num", 8, self.avail_num);
        to.number("avails_expected", 8, self.avails_expected);
    }
}

impl InsertComponent {
    fn read_immediate(from: &mut Cursor) -> Option<InsertComponent> {
        Some(InsertComponent {
            component_tag: from.take(8)?,
            splice_time: None,
        })
    }

    fn read_timed(from: &mut Cursor) -> Option<InsertComponent> {
        Some(InsertComponent {
            component_tag: from.take(8)?,
            splice_time: Some(SpliceTime::read(from)?),
        })
    }

    fn list(&self, to: &mut Items) {
        to.group("component", |to| {
            to.number("component_tag", 8, self.component_tag);
            if let Some(splice_time) = &self.splice_time {
                splice_time.list(to);
            }
        });
    }
}
