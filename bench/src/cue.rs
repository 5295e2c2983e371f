//! What a question is about, the memory lent for its answer, and how an answer is one number.

use second::reading;
use second::sheet::sheet_of;
use second::text::{section_to_text, text_to_section};

/// How many numbers a sheet has at most, and how many bytes a text.
pub const LONGEST_SHEET: usize = 4_554;
pub const LONGEST_TEXT: usize = 5_464;

/// How many bytes an answer line has at most.
pub const LONGEST_LINE: usize = 23;

/// A refusal is answered as this plus its row, everything else as how much was written.
pub const REFUSED: u64 = 1 << 63;

#[derive(Clone, Debug, Default)]
pub struct Cue {
    pub section: Vec<u8>,
    pub text: Vec<u8>,
    /// Empty where the section has none.
    pub sheet: Vec<u64>,
    /// Which known descriptor is asked for: the last, if there are any.
    pub number: usize,
}

impl Cue {
    pub fn of_section(section: Vec<u8>) -> Cue {
        let count = reading::descriptor_count(&section).unwrap_or(0);
        Cue {
            text: section_to_text(&section, usize::MAX).unwrap_or_default(),
            sheet: sheet_of(&section).unwrap_or_default(),
            number: (count as usize).saturating_sub(1),
            section,
        }
    }

    /// A text that need not be one; then there is no section.
    pub fn of_text(text: Vec<u8>) -> Cue {
        let section = text_to_section(&text, usize::MAX).unwrap_or_default();
        Cue {
            text,
            ..Cue::of_section(section)
        }
    }
}

/// What an answer is written to.
#[derive(Clone, Debug, PartialEq)]
pub struct Lent {
    pub bytes: Vec<u8>,
    pub numbers: Vec<u64>,
}

impl Lent {
    /// Room for so many bytes and numbers, none of them 0.
    pub fn new(bytes: usize, numbers: usize) -> Lent {
        Lent {
            bytes: vec![0xA5; bytes],
            numbers: vec![0xA5; numbers],
        }
    }

    /// Room for every answer, and for a line that is held before it.
    pub fn ample() -> Lent {
        Lent::new(2 * LONGEST_TEXT, LONGEST_SHEET)
    }
}
