//! Bytes taken apart once, for all that is asked of them.

use super::{accept, Clear, Inside, Section};
use crate::refusal::SEALED;

/// The bytes that were lent as a section, and what acceptance says of them. The typed readings and
/// the house answers are its methods, so that a section is not taken apart anew for each of them.
pub struct Apart<'a> {
    pub bytes: &'a [u8],
    /// The section with all its fields, or the number of the row that refuses it.
    pub accepted: Result<Section, u8>,
}

impl<'a> Apart<'a> {
    pub fn of(bytes: &'a [u8]) -> Apart<'a> {
        let accepted = accept(bytes);
        Apart { bytes, accepted }
    }

    /// The section, if it is accepted.
    pub fn section(&self) -> Result<&Section, u8> {
        self.accepted.as_ref().map_err(|row| *row)
    }

    /// The inside of a section that is accepted and not sealed.
    pub fn clear(&self) -> Result<&Clear, u8> {
        match &self.section()?.inside {
            Inside::Clear(clear) => Ok(clear),
            Inside::Sealed(_) => Err(SEALED),
        }
    }
}
