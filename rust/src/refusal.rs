//! Why a question is refused.

use std::error::Error;
use std::fmt;

/// A refusal, by the table's names and in its order: the first that applies is given.
///
/// ```
/// use timpanimist::Refusal;
/// let refusal = timpanimist::accept(b"too short").unwrap_err();
/// assert_eq!(refusal, Refusal::Short);
/// assert_eq!(refusal.number(), 1);
/// assert_eq!(refusal.to_string(), "1 SHORT: the section has fewer than 20 bytes");
/// ```
#[derive(Clone, Copy, Debug, PartialEq, Eq, PartialOrd, Ord, Hash)]
pub enum Refusal {
    /// Fewer than 20 bytes.
    Short = 1,
    /// Byte 0 is not 0xFC.
    Table,
    /// section_syntax_indicator or private_indicator is 1.
    Syntax,
    /// section_length exceeds 4,093, or plus 3 is not the count of bytes.
    Size,
    /// The CRC over the whole section is not 0.
    Crc,
    /// protocol_version is not 0.
    Version,
    /// encrypted_packet is 1 and there are fewer than 24 bytes.
    Crypt,
    /// The command breaks its grammar or its length.
    Command,
    /// The descriptor loop, or its length field, does not fit before the CRC.
    Loop,
    /// The descriptors do not fill the loop, or one breaks its grammar.
    Descriptor,
    /// The answer is longer than the memory lent for it. This crate lends enough, so it is not met.
    Room,
    /// A text's length is not a multiple of 4, or exceeds 5,464.
    TextLen,
    /// A text has a character outside the base64 alphabet.
    TextChar,
    /// The spare bits before a text's padding are not 0.
    TextBits,
    /// The numbers are the field sheet of no accepted section.
    Sheet,
    /// There is no part of that number.
    NotHere,
    /// The section is encrypted, and the question is on what is inside.
    Sealed,
}

/// The bit by which the archive marks a refusal's number.
const REFUSED: u64 = 1 << 63;

/// The table's name and plain words of each refusal, in the order of [`Refusal::ALL`].
#[rustfmt::skip]
const TOLD: [(&str, &str); 17] = [
    ("SHORT", "the section has fewer than 20 bytes"),
    ("TABLE", "the first byte is not 0xFC, by which every cue starts"),
    ("SYNTAX", "section_syntax_indicator or private_indicator is 1"),
    ("SIZE", "section_length does not fit the bytes, or there are more than 4,096 of them"),
    ("CRC", "the CRC does not come out, so the bytes are not those that were sent"),
    ("VERSION", "protocol_version is not 0"),
    ("CRYPT", "the section is encrypted and has fewer than 24 bytes"),
    ("COMMAND", "the command breaks its grammar, or splice_command_length is not the length it has"),
    ("LOOP", "descriptor_loop_length, or the loop that it announces, does not fit before the CRC"),
    ("DESCRIPTOR", "the descriptors do not fill their loop exactly, or one of them breaks its grammar"),
    ("ROOM", "the answer is longer than the memory that was lent for it"),
    ("TEXTLEN", "the text's length is not a multiple of 4, or is more than 5,464 characters"),
    ("TEXTCHAR", "the text has a character outside the base64 alphabet, or padding before its end"),
    ("TEXTBITS", "the spare bits before the text's padding are not zero"),
    ("SHEET", "the numbers are not the field sheet of any section"),
    ("NOTHERE", "there is no part of that number"),
    ("SEALED", "the section is encrypted, so what is inside cannot be told"),
];

impl Refusal {
    /// Every refusal, in the order of the table.
    pub const ALL: [Refusal; 17] = [
        Refusal::Short,
        Refusal::Table,
        Refusal::Syntax,
        Refusal::Size,
        Refusal::Crc,
        Refusal::Version,
        Refusal::Crypt,
        Refusal::Command,
        Refusal::Loop,
        Refusal::Descriptor,
        Refusal::Room,
        Refusal::TextLen,
        Refusal::TextChar,
        Refusal::TextBits,
        Refusal::Sheet,
        Refusal::NotHere,
        Refusal::Sealed,
    ];

    /// The table's number, 1 to 17.
    pub fn number(self) -> u32 {
        self as u32
    }

    /// The refusal of that number.
    pub fn from_number(number: u32) -> Option<Refusal> {
        Refusal::ALL
            .into_iter()
            .find(|refusal| refusal.number() == number)
    }

    /// The table's name.
    pub fn name(self) -> &'static str {
        TOLD[self as usize - 1].0
    }

    /// The reason in plain words.
    pub fn words(self) -> &'static str {
        TOLD[self as usize - 1].1
    }
}

/// The number, the name and the words.
impl fmt::Display for Refusal {
    fn fmt(&self, f: &mut fmt::Formatter<'_>) -> fmt::Result {
        write!(f, "{} {}: {}", self.number(), self.name(), self.words())
    }
}

impl Error for Refusal {}

/// The count in an answer of the archive, or the refusal.
pub(crate) fn counted(answer: u64) -> Result<usize, Refusal> {
    match answer & REFUSED {
        0 => Ok(answer as usize),
        _ => Err(numbered(answer - REFUSED)),
    }
}

/// The refusal whose number the archive gave.
pub(crate) fn numbered(number: u64) -> Refusal {
    let refusal = u32::try_from(number).ok().and_then(Refusal::from_number);
    refusal.unwrap_or_else(|| {
        panic!("the archive refused with {number}, which the table does not have")
    })
}
