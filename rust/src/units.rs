//! Ticks, milliseconds and event ids, each a kind of its own.

use crate::ffi;

/// A time or a duration in ticks of 90 kHz.
#[derive(Clone, Copy, Debug, PartialEq, Eq, PartialOrd, Ord, Hash)]
pub struct Ticks(pub u64);

/// A duration in milliseconds.
#[derive(Clone, Copy, Debug, PartialEq, Eq, PartialOrd, Ord, Hash)]
pub struct Millis(pub u64);

/// A splice_event_id or a segmentation_event_id.
#[derive(Clone, Copy, Debug, PartialEq, Eq, PartialOrd, Ord, Hash)]
pub struct EventId(pub u32);

impl Ticks {
    /// The whole milliseconds in these ticks: the only crossing between the kinds.
    ///
    /// ```
    /// use timpanimist::{Millis, Ticks};
    /// assert_eq!(Ticks(18_132_042).to_millis(), Millis(201_467));
    /// ```
    pub fn to_millis(self) -> Millis {
        Millis(ffi::ticks_to_millis(self.0))
    }

    /// The time that lies `other` after this one on the 33-bit clock, which wraps.
    ///
    /// ```
    /// use timpanimist::Ticks;
    /// assert_eq!(Ticks(8_589_934_591).clock_sum(Ticks(1)), Ticks(0));
    /// ```
    pub fn clock_sum(self, other: Ticks) -> Ticks {
        Ticks(ffi::clock_sum(self.0, other.0))
    }
}
