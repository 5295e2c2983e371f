//! What the house makes of a cue.

use crate::ffi;
use crate::limits::*;
use crate::numbers::{asked, asked_by, no_case, Numbers, Read};
use crate::{Refusal, Ticks};

/// Whether a cue opens a break, and how long it lasts.
#[derive(Clone, Copy, Debug, PartialEq, Eq, Hash)]
pub enum Break {
    None,
    Measured(Ticks),
    /// A break whose cue says no duration, which is not one of 0 ticks.
    Unmeasured,
    /// Sealed, or of a splice_command_type that the standard does not have.
    Unread,
}

/// When a splice takes place on the stream's own clock, pts_adjustment added.
#[derive(Clone, Copy, Debug, PartialEq, Eq, Hash)]
pub enum EffectiveTime {
    None,
    At(Ticks),
}

/// How long the DASH event of a time signal lasts.
#[derive(Clone, Copy, Debug, PartialEq, Eq, Hash)]
pub enum DashDuration {
    None,
    Measured(Ticks),
}

/// What a break is billed under.
#[derive(Clone, Copy, Debug, PartialEq, Eq, Hash)]
pub enum Label<'a> {
    /// The UPID bytes of the first known descriptor that has any, a part of the section that was lent.
    Upid(&'a [u8]),
    /// The house's name as it was lent.
    House(&'a [u8]),
}

/// Whether the section opens a break, and how long it lasts. A time signal's break lasts as long as the
/// longest duration among the descriptors that open one. Refused as by [`accept`](crate::accept); a sealed
/// section is unread.
///
/// ```
/// use timpanimist::{break_answer, Break, Ticks};
/// # fn main() -> Result<(), timpanimist::Refusal> {
/// # let text = b"/DA0AAAAAAAAAAAABQb+ADAQ6QAeAhxDVUVJQAAAO3/PAAEUrEoICAAAAAAg+2UBNAAANvrtoQ==";
/// let section = timpanimist::text_to_section(text)?;
/// assert_eq!(break_answer(&section)?, Break::Measured(Ticks(18_132_042)));
/// # Ok(())
/// # }
/// ```
pub fn break_answer(section: &[u8]) -> Result<Break, Refusal> {
    asked::<MOST_BREAK, _>(|out| ffi::break_answer(section, out))
}

/// When the splice takes place. Refused as by [`accept`](crate::accept), then by
/// [`Sealed`](Refusal::Sealed).
///
/// ```
/// use timpanimist::{effective_time, EffectiveTime, Ticks};
/// # fn main() -> Result<(), timpanimist::Refusal> {
/// # let text = b"/DA0AAAAAAAAAAAABQb+ADAQ6QAeAhxDVUVJQAAAO3/PAAEUrEoICAAAAAAg+2UBNAAANvrtoQ==";
/// let section = timpanimist::text_to_section(text)?;
/// assert_eq!(effective_time(&section)?, EffectiveTime::At(Ticks(3_150_057)));
/// # Ok(())
/// # }
/// ```
pub fn effective_time(section: &[u8]) -> Result<EffectiveTime, Refusal> {
    asked::<MOST_EFFECTIVE_TIME, _>(|out| ffi::effective_time(section, out))
}

/// Whether the section passes the first DVB-DASH check. Refused as by [`accept`](crate::accept), then by
/// [`Sealed`](Refusal::Sealed).
pub fn dvb(section: &[u8]) -> Result<bool, Refusal> {
    asked::<MOST_DVB, _>(|out| ffi::dvb(section, out))
}

/// How long the DASH event of a time signal lasts: the longest duration among all its uncancelled
/// segmentation descriptors, whether or not it opens a break. It bills nothing. Refused as by
/// [`accept`](crate::accept), then by [`Sealed`](Refusal::Sealed).
///
/// ```
/// use timpanimist::{dash_duration, DashDuration, Ticks};
/// # fn main() -> Result<(), timpanimist::Refusal> {
/// # let text = b"/DA0AAAAAAAAAAAABQb+ADAQ6QAeAhxDVUVJQAAAO3/PAAEUrEoICAAAAAAg+2UBNAAANvrtoQ==";
/// let section = timpanimist::text_to_section(text)?;
/// assert_eq!(dash_duration(&section)?, DashDuration::Measured(Ticks(18_132_042)));
/// # Ok(())
/// # }
/// ```
pub fn dash_duration(section: &[u8]) -> Result<DashDuration, Refusal> {
    asked::<MOST_DASH_DURATION, _>(|out| ffi::dash_duration(section, out))
}

/// What the break is billed under: the section's first UPID, or the house's name where the section is
/// refused or sealed or has none.
pub fn label<'a>(section: &'a [u8], house: &'a [u8]) -> Label<'a> {
    let answer = asked_by::<MOST_BILL_LABEL, _>(
        |out| ffi::bill_label(section, house, out),
        |numbers| match numbers.case() {
            0 => Label::Upid(numbers.part(section)),
            1 => Label::House(numbers.part(house)),
            case => no_case("bill label", case),
        },
    );
    answer.expect("a bill label is refused for want of room alone")
}

/// The bytes of the [`label`].
///
/// ```
/// use timpanimist::bill_label;
/// # fn main() -> Result<(), timpanimist::Refusal> {
/// # let text = b"/DA0AAAAAAAAAAAABQb+ADAQ6QAeAhxDVUVJQAAAO3/PAAEUrEoICAAAAAAg+2UBNAAANvrtoQ==";
/// let section = timpanimist::text_to_section(text)?;
/// assert_eq!(bill_label(&section, b"Channel 9"), [0, 0, 0, 0, 0x20, 0xFB, 0x65, 0x01]);
/// assert_eq!(bill_label(b"no section", b"Channel 9"), b"Channel 9");
/// # Ok(())
/// # }
/// ```
pub fn bill_label<'a>(section: &'a [u8], house: &'a [u8]) -> &'a [u8] {
    match label(section, house) {
        Label::Upid(bytes) | Label::House(bytes) => bytes,
    }
}

impl Read for Break {
    fn read(numbers: &mut Numbers) -> Break {
        match numbers.case() {
            0 => Break::None,
            1 => Break::Measured(numbers.read()),
            2 => Break::Unmeasured,
            3 => Break::Unread,
            case => no_case("break", case),
        }
    }
}

impl Read for EffectiveTime {
    fn read(numbers: &mut Numbers) -> EffectiveTime {
        match numbers.case() {
            0 => EffectiveTime::None,
            1 => EffectiveTime::At(numbers.read()),
            case => no_case("effective time", case),
        }
    }
}

impl Read for DashDuration {
    fn read(numbers: &mut Numbers) -> DashDuration {
        match numbers.case() {
            0 => DashDuration::None,
            1 => DashDuration::Measured(numbers.read()),
            case => no_case("DASH duration", case),
        }
    }
}
