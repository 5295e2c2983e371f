//! The command of a section, and the bytes of a private one.

use super::entries::{Entries, Reading};
use super::insert::Insert;
use super::time::Time;
use super::{at, count};
use crate::refusal::NOTHERE;
use crate::section::{self, Apart};

#[derive(Clone, Debug, PartialEq, Eq)]
pub enum Command {
    Null,
    Schedule {
        splice_count: u64,
    },
    Insert(Insert),
    CancelledInsert {
        splice_event_id: u32,
    },
    /// The time is not given or given, never immediate.
    TimeSignal(Time),
    BandwidthReservation,
    Private {
        identifier: u32,
        byte_count: u64,
    },
    /// A type that 002 reserves.
    Unread,
}

impl Apart<'_> {
    /// The command.
    pub fn command(&self) -> Result<Command, u8> {
        Ok(Command::of(&self.clear()?.command))
    }

    /// Byte `n` of a private command, behind its identifier.
    pub fn private_byte(&self, n: u64) -> Result<u8, u8> {
        match &self.clear()?.command {
            section::Command::Private(private) => at(&private.private_bytes, n).copied(),
            _ => Err(NOTHERE),
        }
    }
}

impl Command {
    fn of(read: &section::Command) -> Command {
        match read {
            section::Command::SpliceNull => Command::Null,
            section::Command::SpliceSchedule(schedule) => Command::Schedule {
                splice_count: count(&schedule.events),
            },
            section::Command::SpliceInsert(insert) => Command::of_insert(insert),
            section::Command::TimeSignal(splice_time) => Command::TimeSignal(Time::of(splice_time)),
            section::Command::BandwidthReservation => Command::BandwidthReservation,
            section::Command::Private(private) => Command::Private {
                identifier: private.identifier,
                byte_count: count(&private.private_bytes),
            },
            section::Command::Unknown(_) => Command::Unread,
        }
    }

    fn of_insert(insert: &section::SpliceInsert) -> Command {
        let splice_event_id = insert.splice_event_id;
        match &insert.splicing {
            None => Command::CancelledInsert { splice_event_id },
            Some(splicing) => Command::Insert(Insert::of(splice_event_id, splicing)),
        }
    }
}

impl Reading for Command {
    fn list(&self, to: &mut Entries) {
        match self {
            Command::Null => to.case("command", "null", 0),
            Command::Schedule { splice_count } => {
                to.case("command", "schedule", 1);
                to.value("splice_count", *splice_count);
            }
            Command::Insert(insert) => {
                to.case("command", "insert", 2);
                insert.list(to);
            }
            Command::CancelledInsert { splice_event_id } => {
                to.case("command", "cancelled insert", 3);
                to.value("splice_event_id", *splice_event_id);
            }
            Command::TimeSignal(time) => {
                to.case("command", "time signal", 4);
                time.list(to);
            }
            Command::BandwidthReservation => to.case("command", "bandwidth reservation", 5),
            Command::Private {
                identifier,
                byte_count,
            } => {
                to.case("command", "private", 6);
                to.value("identifier", *identifier);
                to.value("byte_count", *byte_count);
            }
            Command::Unread => to.case("command", "unread", 7),
        }
    }
}
