//! The field sheet: every field of a section as one number, in order, and the way back.
//! section_length and CRC_32 are left out; a byte string is one number a byte.

mod grammar;
mod pen;
mod related;

use crate::refusal::SHEET;
use crate::section::{accept, Item};

pub use related::related;

/// The sheet of a section, or the number of the row, 1 to 10, that refuses the section.
pub fn sheet_of(section: &[u8]) -> Result<Vec<u64>, u8> {
    let mut sheet = Vec::new();
    for item in accept(section)?.items() {
        match item {
            Item::Number("section_length" | "CRC_32", _, _) => {}
            Item::Number(_, _, value) => sheet.push(value),
            Item::Bytes(_, bytes) => sheet.extend(bytes.iter().map(|byte| u64::from(*byte))),
            Item::Open(_) | Item::Close => {}
        }
    }
    Ok(sheet)
}

/// The one section that has this sheet, or SHEET where no accepted section has it.
pub fn section_of(sheet: &[u64]) -> Result<Vec<u8>, u8> {
    // Whatever the grammar took the numbers for, they are a sheet if the section they make is
    // accepted and has them for its own.
    let section = grammar::section_from(sheet).ok_or(SHEET)?;
    match sheet_of(&section) {
        Ok(its_own) if its_own == sheet => Ok(section),
        _ => Err(SHEET),
    }
}

#[cfg(test)]
mod tests;
