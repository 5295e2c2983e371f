//! The times that commands share: when to splice, and how long the break is.

use super::entries::{Entries, Reading};
use crate::section;

/// When to splice: one of three.
#[derive(Clone, Copy, Debug, PartialEq, Eq)]
pub enum Time {
    Immediate,
    NotGiven,
    /// pts_time, in ticks.
    Given(u64),
}

impl Time {
    /// What a splice_time() says, which is never that the splice is immediate.
    pub fn of(splice_time: &section::SpliceTime) -> Time {
        match splice_time.pts_time {
            None => Time::NotGiven,
            Some(pts_time) => Time::Given(pts_time),
        }
    }
}

impl Reading for Time {
    fn list(&self, to: &mut Entries) {
        match self {
            Time::Immediate => to.case("time", "immediate", 0),
            Time::NotGiven => to.case("time", "not given", 1),
            Time::Given(pts_time) => {
                to.case("time", "given", 2);
                to.value("pts_time", *pts_time);
            }
        }
    }
}

/// break_duration() without its reserved bits.
#[derive(Clone, Copy, Debug, PartialEq, Eq)]
pub struct BreakDuration {
    pub auto_return: bool,
    /// In ticks.
    pub duration: u64,
}

impl BreakDuration {
    pub fn of(read: &section::BreakDuration) -> BreakDuration {
        BreakDuration {
            auto_return: read.auto_return,
            duration: read.duration,
        }
    }
}

impl Reading for BreakDuration {
    fn list(&self, to: &mut Entries) {
        to.value("auto_return", self.auto_return);
        to.value("duration", self.duration);
    }
}
