//! A safe wrapper around Timpanimist, a proved reader of SCTE 35 cues.
//!
//! A cue is a section of bytes, or its base64 text. Every function takes any bytes and answers with a
//! value or with the [`Refusal`] that applies. No input makes one panic, and none has a state.
//!
//! ```
//! use timpanimist::{accept, break_answer, text_to_section, Break, Millis};
//! # fn main() -> Result<(), timpanimist::Refusal> {
//! let text = b"/DA0AAAAAAAAAAAABQb+ADAQ6QAeAhxDVUVJQAAAO3/PAAEUrEoICAAAAAAg+2UBNAAANvrtoQ==";
//! let section = text_to_section(text)?;
//! accept(&section)?;
//! if let Break::Measured(ticks) = break_answer(&section)? {
//!     assert_eq!(ticks.to_millis(), Millis(201_467));
//! }
//! # Ok(())
//! # }
//! ```
//!
//! The names are those of the standard and of docs/READINGS.md, which says what each answer means. The
//! numbers of a field sheet are in docs/SHEET.md.
//!
//! Lists (components, events, private bytes, characters, known descriptors) are asked by number or as an
//! iterator. Each step of an iterator is a question of its own, which reads the section anew.

#![deny(unsafe_code)]

mod bits;
mod command;
mod descriptor;
#[allow(unsafe_code)]
mod ffi;
mod house;
mod limits;
mod line;
mod lines;
mod numbers;
mod refusal;
mod section;
mod units;

pub use bits::{field_read, field_write};
pub use command::{
    command, event_component, event_components, insert_component, insert_components, private_byte,
    private_bytes, schedule_event, schedule_events, Avails, BreakDuration, Command, Event,
    EventComponent, EventTime, Insert, InsertComponent, Mode, ScheduledEvent, SpliceTime,
};
pub use descriptor::{
    audio_component, audio_components, dtmf_char, dtmf_chars, known_count, known_descriptor,
    known_descriptors, segmentation_component, segmentation_components, upid, AudioComponent,
    Delivery, Descriptor, Duration, Segmentation, SegmentationComponent, SubSegments,
};
pub use house::{
    bill_label, break_answer, dash_duration, dvb, effective_time, label, Break, DashDuration,
    EffectiveTime, Label,
};
pub use limits::{LONGEST_LINE, LONGEST_SECTION, LONGEST_TEXT, MOST_SHEET, MOST_TEXT_BYTES};
pub use line::{line, Line, NotALine};
pub use lines::Lines;
pub use refusal::Refusal;
pub use section::{accept, crc32, section_of_sheet, section_to_text, sheet, text_to_section};
pub use units::{EventId, Millis, Ticks};
