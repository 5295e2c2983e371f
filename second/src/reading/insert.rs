//! An insert that is not cancelled, and its components.

use super::at;
use super::entries::{Entries, Reading};
use super::mode::Mode;
use super::time::{BreakDuration, Time};
use crate::section::{self, Apart};

#[derive(Clone, Debug, PartialEq, Eq)]
pub struct Insert {
    pub splice_event_id: u32,
    pub out_of_network_indicator: bool,
    /// Of a component insert immediate or not given: each component has a time of its own.
    pub time: Time,
    pub mode: Mode,
    pub break_duration: Option<BreakDuration>,
    pub unique_program_id: u16,
    pub avail_num: u8,
    pub avails_expected: u8,
}

#[derive(Clone, Debug, PartialEq, Eq)]
pub struct InsertComponent {
    pub component_tag: u8,
    pub time: Time,
}

impl Apart<'_> {
    /// Component `n` of a component insert.
    pub fn insert_component(&self, n: u64) -> Result<InsertComponent, u8> {
        let command = &self.clear()?.command;
        at(components(command), n).map(InsertComponent::of)
    }
}

/// The components of the command, none where it is no component insert.
fn components(command: &section::Command) -> &[section::InsertComponent] {
    let section::Command::SpliceInsert(insert) = command else {
        return &[];
    };
    let splicing = insert.splicing.as_ref();
    splicing
        .and_then(|splicing| splicing.components.as_deref())
        .unwrap_or(&[])
}

impl Insert {
    pub fn of(splice_event_id: u32, splicing: &section::Splicing) -> Insert {
        let time = match &splicing.splice_time {
            Some(splice_time) => Time::of(splice_time),
            None if splicing.splice_immediate_flag => Time::Immediate,
            None => Time::NotGiven,
        };
        Insert {
            splice_event_id,
            out_of_network_indicator: splicing.out_of_network_indicator,
            time,
            mode: Mode::of(&splicing.components),
            break_duration: splicing.break_duration.as_ref().map(BreakDuration::of),
            unique_program_id: splicing.unique_program_id,
            avail_num: splicing.avail_num,
            avails_expected: splicing.avails_expected,
        }
    }
}

impl InsertComponent {
    fn of(read: &section::InsertComponent) -> InsertComponent {
        InsertComponent {
            component_tag: read.component_tag,
            time: read.splice_time.as_ref().map_or(Time::Immediate, Time::of),
        }
    }
}

impl Reading for Insert {
    fn list(&self, to: &mut Entries) {
        to.value("splice_event_id", self.splice_event_id);
        to.value("out_of_network_indicator", self.out_of_network_indicator);
        self.time.list(to);
        self.mode.list(to);
        to.optional("break_duration", &self.break_duration, |to, it| it.list(to));
        to.value("unique_program_id", self.unique_program_id);
        to.value("avail_num", self.avail_num);
        to.value("avails_expected", self.avails_expected);
    }
}

impl Reading for InsertComponent {
    fn list(&self, to: &mut Entries) {
        to.value("component_tag", self.component_tag);
        self.time.list(to);
    }
}
