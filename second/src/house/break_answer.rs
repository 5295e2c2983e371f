//! The break answer: whether a section opens a break, and how long that is.

use super::segments::{longest, segments};
use crate::reading::{Entries, Reading};
use crate::section::{Apart, Clear, Command, Descriptor, Inside, Segment, SpliceInsert};

/// The segmentation types that open a break (003).
const OPENING_TYPES: [u8; 5] = [0x22, 0x30, 0x32, 0x34, 0x36];

#[derive(Clone, Copy, Debug, PartialEq, Eq)]
pub enum Break {
    /// The section opens no break.
    None,
    /// A break of so many ticks, 0 among them.
    Measured { ticks: u64 },
    /// A break that carries no duration.
    WithoutMeasure,
    /// Sealed, or a command of a type that 002 reserves.
    Unread,
}

impl Apart<'_> {
    /// The break that a section opens. A sealed section is unread, which is no refusal.
    pub fn break_answer(&self) -> Result<Break, u8> {
        match &self.section()?.inside {
            Inside::Sealed(_) => Ok(Break::Unread),
            Inside::Clear(clear) => Ok(Break::of(clear)),
        }
    }
}

impl Break {
    fn of(clear: &Clear) -> Break {
        match &clear.command {
            Command::SpliceInsert(insert) => Break::of_insert(insert),
            Command::TimeSignal(_) => Break::of_signal(&clear.descriptors),
            Command::SpliceNull
            | Command::SpliceSchedule(_)
            | Command::BandwidthReservation
            | Command::Private(_) => Break::None,
            Command::Unknown(_) => Break::Unread,
        }
    }

    /// No descriptor measures an insert.
    fn of_insert(insert: &SpliceInsert) -> Break {
        match &insert.splicing {
            Some(splicing) if splicing.out_of_network_indicator => {
                let duration = splicing.break_duration.as_ref();
                Break::opened(duration.map(|duration| duration.duration))
            }
            _ => Break::None,
        }
    }

    /// One of the five types opens the break, and those of the five types alone measure it (02, §2):
    /// a program that starts beside it may be longer, and is not billed.
    fn of_signal(descriptors: &[Descriptor]) -> Break {
        let opening: Vec<&Segment> = segments(descriptors).filter(opens).collect();
        if opening.is_empty() {
            return Break::None;
        }
        Break::opened(longest(opening))
    }

    fn opened(ticks: Option<u64>) -> Break {
        match ticks {
            Some(ticks) => Break::Measured { ticks },
            None => Break::WithoutMeasure,
        }
    }
}

fn opens(segment: &&Segment) -> bool {
    OPENING_TYPES.contains(&segment.segmentation_type_id)
}

impl Reading for Break {
    fn list(&self, to: &mut Entries) {
        match self {
            Break::None => to.case("break", "none", 0),
            Break::Measured { ticks } => {
                to.case("break", "measured", 1);
                to.value("ticks", *ticks);
            }
            Break::WithoutMeasure => to.case("break", "without measure", 2),
            Break::Unread => to.case("break", "unread", 3),
        }
    }
}
