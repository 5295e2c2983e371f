//! What the command of a section says. Every question is refused as by [`accept`](crate::accept), then by
//! [`Sealed`](Refusal::Sealed), then by [`NotHere`](Refusal::NotHere).

mod answers;
mod numbers;

pub use answers::*;

use crate::ffi;
use crate::limits::*;
use crate::numbers::{asked, parts};
use crate::Refusal;

/// The command of a section. It is never [`NotHere`](Refusal::NotHere).
///
/// ```
/// use timpanimist::{command, Command, SpliceTime, Ticks};
/// # fn main() -> Result<(), timpanimist::Refusal> {
/// # let text = b"/DA0AAAAAAAAAAAABQb+ADAQ6QAeAhxDVUVJQAAAO3/PAAEUrEoICAAAAAAg+2UBNAAANvrtoQ==";
/// let section = timpanimist::text_to_section(text)?;
/// assert_eq!(command(&section)?, Command::TimeSignal(SpliceTime::Given(Ticks(3_150_057))));
/// # Ok(())
/// # }
/// ```
pub fn command(section: &[u8]) -> Result<Command, Refusal> {
    asked::<MOST_COMMAND, _>(|out| ffi::command(section, out))
}

/// Component n of a splice insert.
pub fn insert_component(section: &[u8], n: usize) -> Result<InsertComponent, Refusal> {
    asked::<MOST_INSERT_COMPONENT, _>(|out| ffi::insert_component(section, n, out))
}

/// The components of a splice insert, none where there is no such list.
///
/// ```
/// use timpanimist::{insert_components, SpliceTime};
/// # fn main() -> Result<(), timpanimist::Refusal> {
/// // an insert by the components 7 and 8, at once
/// let section = timpanimist::section_of_sheet(&[
///     0xFC, 0, 0, 3, 0, 0, 0, 0, 0, 0xFFF, 0xFFF, 5, 100, 0, 127, 1, 0, 0, 1, 15, 2, 7, 8, 0, 0, 0, 0,
/// ])?;
/// let tags: Vec<u8> = insert_components(&section)?.map(|part| part.component_tag).collect();
/// assert_eq!(tags, [7, 8]);
/// # Ok(())
/// # }
/// ```
pub fn insert_components(
    section: &[u8],
) -> Result<impl Iterator<Item = InsertComponent> + '_, Refusal> {
    parts(move |n| insert_component(section, n))
}

/// Event n of a splice schedule.
pub fn schedule_event(section: &[u8], n: usize) -> Result<Event, Refusal> {
    asked::<MOST_SCHEDULE_EVENT, _>(|out| ffi::schedule_event(section, n, out))
}

/// The events of a splice schedule, none where there is no such list.
pub fn schedule_events(section: &[u8]) -> Result<impl Iterator<Item = Event> + '_, Refusal> {
    parts(move |n| schedule_event(section, n))
}

/// Component m of event n of a splice schedule.
pub fn event_component(section: &[u8], n: usize, m: usize) -> Result<EventComponent, Refusal> {
    asked::<MOST_EVENT_COMPONENT, _>(|out| ffi::event_component(section, n, m, out))
}

/// The components of event n of a splice schedule, none where there is no such list.
pub fn event_components(
    section: &[u8],
    n: usize,
) -> Result<impl Iterator<Item = EventComponent> + '_, Refusal> {
    parts(move |m| event_component(section, n, m))
}

/// Byte n of a private command behind its identifier.
pub fn private_byte(section: &[u8], n: usize) -> Result<u8, Refusal> {
    asked::<MOST_PRIVATE_BYTE, _>(|out| ffi::private_byte(section, n, out))
}

/// The bytes of a private command behind its identifier, none where there is no such list.
pub fn private_bytes(section: &[u8]) -> Result<impl Iterator<Item = u8> + '_, Refusal> {
    parts(move |n| private_byte(section, n))
}
