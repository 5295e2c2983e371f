//! What the known descriptors of a section say. They are numbered from 0, unknown ones not counted. Every
//! question is refused as by [`accept`](crate::accept), then by [`Sealed`](Refusal::Sealed), then by
//! [`NotHere`](Refusal::NotHere).

mod answers;
mod numbers;

pub use answers::*;

use crate::ffi;
use crate::limits::*;
use crate::numbers::{asked, asked_by, parts};
use crate::Refusal;

/// How many known descriptors there are. It is never [`NotHere`](Refusal::NotHere).
pub fn known_count(section: &[u8]) -> Result<usize, Refusal> {
    asked::<MOST_KNOWN_COUNT, _>(|out| ffi::known_count(section, out))
}

/// Known descriptor n.
pub fn known_descriptor(section: &[u8], n: usize) -> Result<Descriptor, Refusal> {
    asked::<MOST_KNOWN_DESCRIPTOR, _>(|out| ffi::known_descriptor(section, n, out))
}

/// The known descriptors in order.
///
/// ```
/// use timpanimist::{known_descriptors, Descriptor, Duration, Ticks};
/// # fn main() -> Result<(), timpanimist::Refusal> {
/// # let text = b"/DA0AAAAAAAAAAAABQb+ADAQ6QAeAhxDVUVJQAAAO3/PAAEUrEoICAAAAAAg+2UBNAAANvrtoQ==";
/// let section = timpanimist::text_to_section(text)?;
/// for descriptor in known_descriptors(&section)? {
///     if let Descriptor::Segmentation(segmentation) = descriptor {
///         assert_eq!(segmentation.segmentation_type_id, 0x34);
///         assert_eq!(segmentation.duration, Duration::Present(Ticks(18_132_042)));
///     }
/// }
/// # Ok(())
/// # }
/// ```
pub fn known_descriptors(section: &[u8]) -> Result<impl Iterator<Item = Descriptor> + '_, Refusal> {
    parts(move |n| known_descriptor(section, n))
}

/// Character m of known descriptor n, a DTMF descriptor.
pub fn dtmf_char(section: &[u8], n: usize, m: usize) -> Result<u8, Refusal> {
    asked::<MOST_DTMF_CHAR, _>(|out| ffi::dtmf_char(section, n, m, out))
}

/// The characters of known descriptor n, none where it is no DTMF descriptor.
pub fn dtmf_chars(section: &[u8], n: usize) -> Result<impl Iterator<Item = u8> + '_, Refusal> {
    parts(move |m| dtmf_char(section, n, m))
}

/// Component m of known descriptor n, a segmentation descriptor.
pub fn segmentation_component(
    section: &[u8],
    n: usize,
    m: usize,
) -> Result<SegmentationComponent, Refusal> {
    asked::<MOST_SEGMENTATION_COMPONENT, _>(|out| ffi::segmentation_component(section, n, m, out))
}

/// The components of known descriptor n, none where it is no segmentation descriptor by components.
pub fn segmentation_components(
    section: &[u8],
    n: usize,
) -> Result<impl Iterator<Item = SegmentationComponent> + '_, Refusal> {
    parts(move |m| segmentation_component(section, n, m))
}

/// Component m of known descriptor n, an audio descriptor.
pub fn audio_component(section: &[u8], n: usize, m: usize) -> Result<AudioComponent, Refusal> {
    asked::<MOST_AUDIO_COMPONENT, _>(|out| ffi::audio_component(section, n, m, out))
}

/// The components of known descriptor n, none where it is no audio descriptor.
pub fn audio_components(
    section: &[u8],
    n: usize,
) -> Result<impl Iterator<Item = AudioComponent> + '_, Refusal> {
    parts(move |m| audio_component(section, n, m))
}

/// The UPID bytes of known descriptor n, a part of the section that was lent. They may be none; where it
/// is no uncancelled segmentation descriptor it is refused by [`NotHere`](Refusal::NotHere).
///
/// ```
/// # fn main() -> Result<(), timpanimist::Refusal> {
/// # let text = b"/DA0AAAAAAAAAAAABQb+ADAQ6QAeAhxDVUVJQAAAO3/PAAEUrEoICAAAAAAg+2UBNAAANvrtoQ==";
/// let section = timpanimist::text_to_section(text)?;
/// assert_eq!(timpanimist::upid(&section, 0)?, [0, 0, 0, 0, 0x20, 0xFB, 0x65, 0x01]);
/// # Ok(())
/// # }
/// ```
pub fn upid(section: &[u8], n: usize) -> Result<&[u8], Refusal> {
    asked_by::<MOST_UPID, _>(
        |out| ffi::upid(section, n, out),
        |numbers| numbers.part(section),
    )
}
