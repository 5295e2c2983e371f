//! The effective time: when a section splices, on the clock that pts_adjustment has corrected.

use crate::reading::{Entries, Reading};
use crate::section::{Apart, Command, SpliceTime};
use crate::units::clock_sum;

#[derive(Clone, Copy, Debug, PartialEq, Eq)]
pub enum EffectiveTime {
    None,
    At { ticks: u64 },
}

impl Apart<'_> {
    /// pts_time plus pts_adjustment, wrapped at 2^33, where a time signal or an insert of the program
    /// gives a pts_time.
    pub fn effective_time(&self) -> Result<EffectiveTime, u8> {
        let pts_time = splice_time(&self.clear()?.command).and_then(|time| time.pts_time);
        let pts_adjustment = self.section()?.header.pts_adjustment;
        Ok(match pts_time {
            None => EffectiveTime::None,
            Some(pts_time) => EffectiveTime::At {
                ticks: clock_sum(pts_time, pts_adjustment),
            },
        })
    }
}

/// The splice_time() of the whole program. A cancelled insert has none, nor has one that is
/// immediate; those of components are not asked.
fn splice_time(command: &Command) -> Option<&SpliceTime> {
    match command {
        Command::TimeSignal(splice_time) => Some(splice_time),
        Command::SpliceInsert(insert) => insert.splicing.as_ref()?.splice_time.as_ref(),
        _ => None,
    }
}

impl Reading for EffectiveTime {
    fn list(&self, to: &mut Entries) {
        match self {
            EffectiveTime::None => to.case("effective time", "none", 0),
            EffectiveTime::At { ticks } => {
                to.case("effective time", "given", 1);
                to.value("ticks", *ticks);
            }
        }
    }
}
