//! The DASH duration: how long the event lasts that DVB-DASH makes of a time signal (000 and 001,
//! clause 4.4.5). It says nothing about a bill: what measures a break is told by the break answer.

use super::segments::{longest, segments};
use crate::reading::{Entries, Reading};
use crate::section::{Apart, Command};

#[derive(Clone, Copy, Debug, PartialEq, Eq)]
pub enum DashDuration {
    /// No time signal, or one without a duration.
    None,
    /// So many ticks, 0 among them.
    Lasts { ticks: u64 },
}

impl Apart<'_> {
    /// The longest duration of all uncancelled segmentation descriptors of a time signal, of whatever
    /// type they are: it need not open a break.
    pub fn dash_duration(&self) -> Result<DashDuration, u8> {
        let clear = self.clear()?;
        let ticks = match clear.command {
            Command::TimeSignal(_) => longest(segments(&clear.descriptors)),
            _ => None,
        };
        Ok(match ticks {
            None => DashDuration::None,
            Some(ticks) => DashDuration::Lasts { ticks },
        })
    }
}

impl Reading for DashDuration {
    fn list(&self, to: &mut Entries) {
        match self {
            DashDuration::None => to.case("DASH duration", "none", 0),
            DashDuration::Lasts { ticks } => {
                to.case("DASH duration", "given", 1);
                to.value("ticks", *ticks);
            }
        }
    }
}
