//! Texts, sections and field sheets.

use crate::ffi;
use crate::limits::{LONGEST_SECTION, LONGEST_TEXT};
use crate::refusal::{counted, numbered};
use crate::Refusal;

/// The CRC-32 of ISO/IEC 13818-1. It is 0 over a whole section that is undamaged.
///
/// ```
/// assert_eq!(timpanimist::crc32(b"123456789"), 0x0376_E6E7);
/// ```
pub fn crc32(bytes: &[u8]) -> u32 {
    ffi::crc32(bytes)
}

/// The bytes of a base64 text (RFC 4648, section 4). An empty text has none. Refused by
/// [`TextLen`](Refusal::TextLen), [`TextChar`](Refusal::TextChar) and [`TextBits`](Refusal::TextBits);
/// whether the bytes are a section is asked by [`accept`].
///
/// ```
/// use timpanimist::{text_to_section, Refusal};
/// assert_eq!(text_to_section(b"/DA0"), Ok(vec![0xFC, 0x30, 0x34]));
/// assert_eq!(text_to_section(b"/DA"), Err(Refusal::TextLen));
/// ```
pub fn text_to_section(text: &[u8]) -> Result<Vec<u8>, Refusal> {
    let most = text.len().min(LONGEST_TEXT) / 4 * 3;
    written(most, |out| ffi::text_to_section(text, out))
}

/// The base64 text of any bytes, at most 4,096 of them; more are refused by [`Size`](Refusal::Size).
///
/// ```
/// assert_eq!(timpanimist::section_to_text(&[0xFC, 0x30, 0x34]).as_deref(), Ok("/DA0"));
/// ```
pub fn section_to_text(section: &[u8]) -> Result<String, Refusal> {
    let most = section.len().min(LONGEST_SECTION).div_ceil(3) * 4;
    let text = written(most, |out| ffi::section_to_text(section, out))?;
    Ok(String::from_utf8(text).expect("the base64 alphabet is ASCII"))
}

/// Whether the bytes are a section; if not, the first refusal that applies, [`Short`](Refusal::Short) to
/// [`Descriptor`](Refusal::Descriptor).
///
/// ```
/// use timpanimist::{accept, Refusal};
/// assert_eq!(accept(&[0x47; 188]), Err(Refusal::Table));
/// ```
pub fn accept(section: &[u8]) -> Result<(), Refusal> {
    match ffi::accept(section) {
        0 => Ok(()),
        number => Err(numbered(number.into())),
    }
}

/// The field sheet of a section: every field in order, a number each (docs/SHEET.md). Refused as by
/// [`accept`].
///
/// ```
/// # fn main() -> Result<(), timpanimist::Refusal> {
/// # let text = b"/DA0AAAAAAAAAAAABQb+ADAQ6QAeAhxDVUVJQAAAO3/PAAEUrEoICAAAAAAg+2UBNAAANvrtoQ==";
/// let section = timpanimist::text_to_section(text)?;
/// let sheet = timpanimist::sheet(&section)?;
/// assert_eq!((sheet.len(), sheet[29]), (43, 18_132_042)); // segmentation_duration
/// # Ok(())
/// # }
/// ```
pub fn sheet(section: &[u8]) -> Result<Vec<u64>, Refusal> {
    // a field has a bit at least, and a section of more bytes has no sheet
    let most = section.len().min(LONGEST_SECTION) * 8;
    written(most, |out| ffi::section_to_sheet(section, out))
}

/// The one section that has this field sheet. Refused by [`Sheet`](Refusal::Sheet).
///
/// ```
/// use timpanimist::{section_of_sheet, Refusal};
/// let splice_null = [0xFC, 0, 0, 3, 0, 0, 0, 0, 0, 0xFFF, 0, 0, 0];
/// let section = section_of_sheet(&splice_null).unwrap();
/// assert_eq!(timpanimist::sheet(&section).unwrap(), splice_null);
/// assert_eq!(section_of_sheet(&splice_null[1..]), Err(Refusal::Sheet));
/// ```
pub fn section_of_sheet(sheet: &[u64]) -> Result<Vec<u8>, Refusal> {
    written(LONGEST_SECTION, |out| ffi::sheet_to_section(sheet, out))
}

/// What a question wrote into room for `most`.
fn written<T: Clone + Default>(
    most: usize,
    ask: impl FnOnce(&mut [T]) -> u64,
) -> Result<Vec<T>, Refusal> {
    let mut out = vec![T::default(); most];
    let count = counted(ask(&mut out))?;
    out.truncate(count);
    Ok(out)
}
