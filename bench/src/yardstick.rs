//! The C yardstick, as yardstick.h declares it.
//! It is compiled apart, by the C compiler, so that its calls cost what the proved library's cost.

use crate::cue::{Cue, Lent, LONGEST_LINE, LONGEST_TEXT, REFUSED};

#[repr(C)]
struct Stream {
    held: usize,
    line: [u8; LONGEST_TEXT + 1],
}

const START: Stream = Stream {
    held: 0,
    line: [0; LONGEST_TEXT + 1],
};

extern "C" {
    fn yardstick_prepare();
    fn yardstick_crc32(bytes: *const u8, len: usize) -> u32;
    fn yardstick_accept(section: *const u8, len: usize) -> u32;
    fn yardstick_text_to_section(text: *const u8, len: usize, out: *mut u8, room: usize) -> i32;
    fn yardstick_section_to_text(section: *const u8, len: usize, out: *mut u8, room: usize) -> i32;
    fn yardstick_section_to_sheet(
        section: *const u8,
        len: usize,
        out: *mut u64,
        room: usize,
    ) -> i32;
    fn yardstick_sheet_to_section(sheet: *const u64, len: usize, out: *mut u8, room: usize) -> i32;
    fn yardstick_command(section: *const u8, len: usize, out: *mut u64, room: usize) -> i32;
    fn yardstick_known_descriptor(
        section: *const u8,
        len: usize,
        n: usize,
        out: *mut u64,
        room: usize,
    ) -> i32;
    fn yardstick_break(section: *const u8, len: usize, out: *mut u64, room: usize) -> i32;
    fn yardstick_effective_time(section: *const u8, len: usize, out: *mut u64, room: usize) -> i32;
    fn yardstick_line(text: *const u8, len: usize, out: *mut u8) -> usize;
    fn yardstick_lines(stream: *mut Stream, input: *const u8, len: usize, out: *mut u8) -> usize;
    fn yardstick_last_line(stream: *const Stream, out: *mut u8) -> usize;
}

/// Fills the yardstick's tables; called before anything else here.
pub fn prepare() {
    unsafe { yardstick_prepare() }
}

// In every call below, a pointer and the length behind it are those of one live slice.

pub fn crc32(cue: &Cue, _: &mut Lent) -> u64 {
    unsafe { yardstick_crc32(cue.section.as_ptr(), cue.section.len()).into() }
}

/// 0 for accepted, otherwise the row that refuses.
pub fn accept(cue: &Cue, _: &mut Lent) -> u64 {
    unsafe { yardstick_accept(cue.section.as_ptr(), cue.section.len()).into() }
}

/// A function that asks about one part of a cue and writes to one part of the lent memory.
macro_rules! asking {
    ($name:ident, $function:ident, $about:ident, $to:ident) => {
        pub fn $name(cue: &Cue, lent: &mut Lent) -> u64 {
            let (about, to) = (&cue.$about, &mut lent.$to);
            wire(unsafe { $function(about.as_ptr(), about.len(), to.as_mut_ptr(), to.len()) })
        }
    };
}

asking!(text_to_section, yardstick_text_to_section, text, bytes);
asking!(section_to_text, yardstick_section_to_text, section, bytes);
asking!(
    section_to_sheet,
    yardstick_section_to_sheet,
    section,
    numbers
);
asking!(sheet_to_section, yardstick_sheet_to_section, sheet, bytes);
asking!(command, yardstick_command, section, numbers);
asking!(break_answer, yardstick_break, section, numbers);
asking!(effective_time, yardstick_effective_time, section, numbers);

pub fn known_descriptor(cue: &Cue, lent: &mut Lent) -> u64 {
    let (about, to) = (&cue.section, &mut lent.numbers);
    wire(unsafe {
        yardstick_known_descriptor(
            about.as_ptr(),
            about.len(),
            cue.number,
            to.as_mut_ptr(),
            to.len(),
        )
    })
}

pub fn line(cue: &Cue, lent: &mut Lent) -> u64 {
    let to = &mut lent.bytes[..LONGEST_LINE];
    unsafe { yardstick_line(cue.text.as_ptr(), cue.text.len(), to.as_mut_ptr()) as u64 }
}

/// The answers to a text of many lines, in one turn, where the proved library's stand too. The lent
/// memory has the room behind them that yardstick.h asks for.
pub fn turn_of(cue: &Cue, lent: &mut Lent) -> u64 {
    let (mut stream, out) = (START, &mut lent.bytes[LONGEST_TEXT..]);
    assert!(out.len() >= 4 * cue.text.len() + LONGEST_LINE);
    let (from, to) = (cue.text.as_ptr(), out.as_mut_ptr());
    unsafe { yardstick_lines(&mut stream, from, cue.text.len(), to) as u64 }
}

/// The answers to a stream that comes in these pieces.
pub fn stream<'a>(pieces: impl Iterator<Item = &'a [u8]>) -> Vec<u8> {
    let mut stream = START;
    let mut answers = Vec::new();
    for piece in pieces {
        let mut out = vec![0; 4 * piece.len() + LONGEST_LINE];
        let (from, to) = (piece.as_ptr(), out.as_mut_ptr());
        let count = unsafe { yardstick_lines(&mut stream, from, piece.len(), to) };
        answers.extend(&out[..count]);
    }
    let mut line = [0; LONGEST_LINE];
    let count = unsafe { yardstick_last_line(&stream, line.as_mut_ptr()) };
    answers.extend(&line[..count]);
    answers
}

fn wire(answer: i32) -> u64 {
    u64::try_from(answer).unwrap_or_else(|_| REFUSED + u64::from(answer.unsigned_abs()))
}
