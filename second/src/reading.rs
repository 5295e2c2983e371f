//! The typed readings: the command, the known descriptors and the lists inside them, for any bytes.
//! Every question is refused with rows 1 to 10, then SEALED, then NOTHERE. No answer carries a
//! reserved bit. Each is asked of a section that was taken apart (`section::Apart`), or of its bytes
//! (`of_bytes`). README.md sets out the numbers of every answer, case by case.

mod command;
mod descriptor;
mod entries;
mod insert;
mod mode;
mod of_bytes;
mod schedule;
mod segmentation;
mod time;
mod upid;

use crate::refusal::NOTHERE;

pub use command::Command;
pub use descriptor::{AudioComponent, Descriptor};
pub use entries::{entries, listing, numbers, Entries, Entry, Reading};
pub use insert::{Insert, InsertComponent};
pub use mode::Mode;
pub use of_bytes::{
    audio_component, command, descriptor, descriptor_count, dtmf_char, event, event_component,
    insert_component, private_byte, segmentation_component, upid,
};
pub use schedule::{Event, EventComponent, EventMode, ScheduledEvent};
pub use segmentation::{DeliveryRestrictions, Segmentation, SegmentationComponent, SubSegments};
pub use time::{BreakDuration, Time};
pub use upid::Upid;

/// The thing in a list that has this number. Where there is no such list, its count is 0 (01,
/// row 16), so an empty list is asked.
fn at<T>(list: &[T], number: u64) -> Result<&T, u8> {
    let number = usize::try_from(number).map_err(|_| NOTHERE)?;
    list.get(number).ok_or(NOTHERE)
}

fn count<T>(list: &[T]) -> u64 {
    list.len() as u64
}

#[cfg(test)]
mod tests;
