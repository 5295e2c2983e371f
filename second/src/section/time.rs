//! The two structures of time that commands share: splice_time() and break_duration().

use super::cursor::Cursor;
use super::items::Items;

/// splice_time(), table 14: pts_time is there exactly when time_specified_flag is 1.
#[derive(Clone, Debug, PartialEq, Eq)]
pub struct SpliceTime {
    pub time_specified_flag: bool,
    pub reserved: u8,
    pub pts_time: Option<u64>,
}

impl SpliceTime {
    pub fn read(from: &mut Cursor) -> Option<SpliceTime> {
        let time_specified_flag = from.flag()?;
        let (reserved, pts_time) = if time_specified_flag {
            (from.take(6)?, Some(from.take(33)?))
        } else {
            (from.take(7)?, None)
        };
        Some(SpliceTime {
            time_specified_flag,
            reserved,
            pts_time,
        })
    }

    pub fn list(&self, to: &mut Items) {
        to.group("splice_time()", |to| {
            to.number("time_specified_flag", 1, self.time_specified_flag);
            match self.pts_time {
                Some(pts_time) => {
                    to.number("reserved", 6, self.reserved);
                    to.number("pts_time", 33, pts_time);
                }
                None => to.number("reserved", 7, self.reserved),
            }
        });
    }
}

/// break_duration(), table 15.
#[derive(Clone, Debug, PartialEq, Eq)]
pub struct BreakDuration {
    pub auto_return: bool,
    pub reserved: u8,
    pub duration: u64,
}

impl BreakDuration {
    pub fn read(from: &mut Cursor) -> Option<BreakDuration> {
        Some(BreakDuration {
            auto_return: from.flag()?,
            reserved: from.take(6)?,
            duration: from.take(33)?,
        })
    }

    pub fn list(&self, to: &mut Items) {
        to.group("break_duration()", |to| {
            to.number("auto_return", 1, self.auto_return);
            to.number("reserved", 6, self.reserved);
            to.number("duration", 33, self.duration);
        });
    }
}
