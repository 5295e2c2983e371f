//! The splice commands, tables 8 to 13, and the length that the header states for them.

mod insert;
mod schedule;

use super::cursor::Cursor;
use super::items::Items;
use super::time::SpliceTime;

pub use insert::{InsertComponent, SpliceInsert, Splicing};
pub use schedule::{Event, EventComponent, EventSplicing, SpliceSchedule};

/// The splice_command_length that states nothing: the grammar finds the length.
const UNSTATED: u16 = 0xFFF;

#[derive(Clone, Debug, PartialEq, Eq)]
pub enum Command {
    SpliceNull,
    SpliceSchedule(SpliceSchedule),
    SpliceInsert(SpliceInsert),
    TimeSignal(SpliceTime),
    BandwidthReservation,
    Private(PrivateCommand),
    /// A type that 002 reserves, and its bytes.
    Unknown(Vec<u8>),
}

/// private_command(), table 13.
#[derive(Clone, Debug, PartialEq, Eq)]
pub struct PrivateCommand {
    pub identifier: u32,
    pub private_bytes: Vec<u8>,
}

impl Command {
    /// The command at the front of `room`, which ends where the CRC starts, and what is behind it.
    pub fn read(kind: u8, length: u16, room: &[u8]) -> Option<(Command, &[u8])> {
        if length == UNSTATED {
            let mut from = Cursor::new(room);
            let command = Command::that_ends_by_itself(kind, &mut from)??;
            return Some((command, &room[from.taken()..]));
        }
        let (own, behind) = room.split_at_checked(usize::from(length))?;
        let mut from = Cursor::new(own);
        let command = match Command::that_ends_by_itself(kind, &mut from) {
            Some(command) => command?,
            None if kind == 0xFF => Command::Private(PrivateCommand {
                identifier: from.take(32)?,
                private_bytes: from.rest()?,
            }),
            None => Command::Unknown(from.rest()?),
        };
        (from.left() == 0).then_some((command, behind))
    }

    /// A command whose own grammar says where it ends: the outer answer is none for any other
    /// kind, the inner one where it cannot be read.
    fn that_ends_by_itself(kind: u8, from: &mut Cursor) -> Option<Option<Command>> {
        match kind {
            0x00 => Some(Some(Command::SpliceNull)),
            0x04 => Some(SpliceSchedule::read(from).map(Command::SpliceSchedule)),
            0x05 => Some(SpliceInsert::read(from).map(Command::SpliceInsert)),
            0x06 => Some(SpliceTime::read(from).map(Command::TimeSignal)),
            0x07 => Some(Some(Command::BandwidthReservation)),
            _ => None,
        }
    }

    pub fn list(&self, to: &mut Items) {
        match self {
            Command::SpliceNull => to.group("splice_null()", |_| {}),
            Command::SpliceSchedule(schedule) => schedule.list(to),
            Command::SpliceInsert(insert) => insert.list(to),
            Command::TimeSignal(time) => to.group("time_signal()", |to| time.list(to)),
            Command::BandwidthReservation => to.group("bandwidth_reservation()", |_| {}),
            Command::Private(command) => to.group("private_command()", |to| {
                to.number("identifier", 32, command.identifier);
                to.bytes("private_byte", &command.private_bytes);
            }),
            Command::Unknown(bytes) => to.bytes("command_byte", bytes),
        }
    }
}
