//! How a difference between the two programs is told: the seed, the function, both sides, and
//! the input as a command that can be pasted into a shell.

use super::lent::{Cell, Lent};
use super::random::seed;
use crate::proved::REFUSED;
use second::hex::to_hex;
use second::refusal;
use std::fmt::{self, Display, Formatter};

/// Ends the test with a report where the two answers are not equal.
pub fn same_answer<T: PartialEq + Display>(
    function: &str,
    second: &T,
    proved: &T,
    paste: impl Fn() -> String,
) {
    if second != proved {
        differ(function, "the answers differ", second, proved, paste());
    }
}

/// Ends the test with a report where the lent memory is not equal after equal answers.
pub fn same_memory<T: Cell>(
    function: &str,
    answer: impl Display,
    memory: &str,
    second: &Lent<T>,
    proved: &Lent<T>,
    paste: impl Fn() -> String,
) {
    if second != proved {
        let what = format!("both answer {answer}, the lent {memory} differs afterwards");
        let (second, proved) = (second.shown_beside(proved), proved.shown_beside(second));
        differ(function, &what, second, proved, paste());
    }
}

fn differ(
    function: &str,
    what: &str,
    second: impl Display,
    proved: impl Display,
    paste: String,
) -> ! {
    panic!(
        "\n{function}: {what}\n  seed: {:#018x}\n  second: {second}\n  proved: {proved}\n  paste: {paste}\n",
        seed()
    )
}

/// An answer of the text and sheet functions: a count, or 2^63 and the number of a refusal.
#[derive(Clone, Copy, PartialEq, Eq)]
pub struct CountAnswer(pub u64);

impl CountAnswer {
    pub fn of<T>(answer: &Result<Vec<T>, u8>) -> CountAnswer {
        match answer {
            Ok(written) => CountAnswer(written.len() as u64),
            Err(refused) => CountAnswer(REFUSED + u64::from(*refused)),
        }
    }
}

impl Display for CountAnswer {
    fn fmt(&self, to: &mut Formatter) -> fmt::Result {
        match self.0.checked_sub(REFUSED).map(u8::try_from) {
            None => write!(to, "{} written", self.0),
            Some(Ok(refused)) => write!(to, "{}", refusal::shown(refused)),
            Some(Err(_)) => write!(to, "{:#x}", self.0),
        }
    }
}

/// An answer of the acceptance: 0 for accepted, otherwise the number of the refusal.
#[derive(Clone, Copy, PartialEq, Eq)]
pub struct AcceptAnswer(pub u32);

impl Display for AcceptAnswer {
    fn fmt(&self, to: &mut Formatter) -> fmt::Result {
        match u8::try_from(self.0) {
            Ok(0) => write!(to, "accepted"),
            Ok(refused) => write!(to, "{}", refusal::shown(refused)),
            Err(_) => write!(to, "{:#x}", self.0),
        }
    }
}

/// A CRC, shown as the command shows it.
#[derive(Clone, Copy, PartialEq, Eq)]
pub struct CrcAnswer(pub u32);

impl Display for CrcAnswer {
    fn fmt(&self, to: &mut Formatter) -> fmt::Result {
        write!(to, "{:#010x}", self.0)
    }
}

/// The question that reads a text: quoted where it is printable, otherwise as hex.
pub fn pasted_text(text: &[u8], room: usize) -> String {
    let printable = |c: &u8| (b' '..=b'~').contains(c) && *c != b'\'';
    if text.iter().all(printable) {
        let text = String::from_utf8_lossy(text);
        format!("second to-section '{text}' {room}")
    } else {
        format!("second to-section-hex '{}' {room}", to_hex(text))
    }
}

/// The question that reads a section into a sheet; the room is told behind it.
pub fn pasted_section(section: &[u8], room: usize) -> String {
    format!("second sheet '{}' # room {room}", to_hex(section))
}

/// The question that writes a sheet as a section; the room is told behind it.
pub fn pasted_sheet(sheet: &[u64], room: usize) -> String {
    format!("second unsheet {} # room {room}", Cell::shown(sheet))
}
