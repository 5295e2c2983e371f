//! The first DVB check (001, Table 1): whether the command is one that DVB-DASH allows.

use crate::reading::{Entries, Reading};
use crate::section::Apart;

#[derive(Clone, Copy, Debug, PartialEq, Eq)]
pub enum Dvb {
    No,
    Yes,
}

impl Apart<'_> {
    /// Yes exactly for splice_insert() and time_signal(), whatever is in them.
    pub fn dvb(&self) -> Result<Dvb, u8> {
        Ok(match self.clear()?.splice_command_type {
            0x05 | 0x06 => Dvb::Yes,
            _ => Dvb::No,
        })
    }
}

impl Reading for Dvb {
    fn list(&self, to: &mut Entries) {
        match self {
            Dvb::No => to.case("DVB", "no", 0),
            Dvb::Yes => to.case("DVB", "yes", 1),
        }
    }
}
