//! The proved library, as its archive libtimpanimist.a offers it to C.
//! Every call goes to the archive's own function; nothing of it can be drawn into this program.

pub mod others;

use crate::cue::{Cue, Lent, LONGEST_LINE, LONGEST_TEXT};

#[link(name = "timpanimist", kind = "static")]
extern "C" {
    fn timpanimist_crc32(bytes: *const u8, len: usize) -> u32;
    fn timpanimist_accept(section: *const u8, len: usize) -> u32;
    fn timpanimist_text_to_section(text: *const u8, len: usize, out: *mut u8, room: usize) -> u64;
    fn timpanimist_section_to_text(
        section: *const u8,
        len: usize,
        out: *mut u8,
        room: usize,
    ) -> u64;
    fn timpanimist_section_to_sheet(
        section: *const u8,
        len: usize,
        out: *mut u64,
        room: usize,
    ) -> u64;
    fn timpanimist_sheet_to_section(
        sheet: *const u64,
        len: usize,
        out: *mut u8,
        room: usize,
    ) -> u64;
    fn timpanimist_command(section: *const u8, len: usize, out: *mut u64, room: usize) -> u64;
    fn timpanimist_known_descriptor(
        section: *const u8,
        len: usize,
        n: usize,
        out: *mut u64,
        room: usize,
    ) -> u64;
    fn timpanimist_break(section: *const u8, len: usize, out: *mut u64, room: usize) -> u64;
    fn timpanimist_effective_time(
        section: *const u8,
        len: usize,
        out: *mut u64,
        room: usize,
    ) -> u64;
    fn timpanimist_line(text: *const u8, len: usize, out: *mut u8, room: usize) -> u64;
    fn timpanimist_lines(
        held: u64,
        input: *const u8,
        len: usize,
        carry: *mut u8,
        carry_len: usize,
        out: *mut u8,
        room: usize,
        turn: *mut u64,
        turn_len: usize,
    ) -> u64;
    fn timpanimist_last_line(
        held: u64,
        carry: *const u8,
        carry_len: usize,
        out: *mut u8,
        room: usize,
    ) -> u64;
}

// In every call below, a pointer and the length behind it are those of one live slice.

pub fn crc32(cue: &Cue, _: &mut Lent) -> u64 {
    unsafe { timpanimist_crc32(cue.section.as_ptr(), cue.section.len()).into() }
}

/// 0 for accepted, otherwise the row that refuses.
pub fn accept(cue: &Cue, _: &mut Lent) -> u64 {
    unsafe { timpanimist_accept(cue.section.as_ptr(), cue.section.len()).into() }
}

/// A function that asks about one part of a cue and writes to one part of the lent memory.
macro_rules! asking {
    ($name:ident, $function:ident, $about:ident, $to:ident) => {
        pub fn $name(cue: &Cue, lent: &mut Lent) -> u64 {
            let (about, to) = (&cue.$about, &mut lent.$to);
            unsafe { $function(about.as_ptr(), about.len(), to.as_mut_ptr(), to.len()) }
        }
    };
}

asking!(text_to_section, timpanimist_text_to_section, text, bytes);
asking!(section_to_text, timpanimist_section_to_text, section, bytes);
asking!(
    section_to_sheet,
    timpanimist_section_to_sheet,
    section,
    numbers
);
asking!(sheet_to_section, timpanimist_sheet_to_section, sheet, bytes);
asking!(command, timpanimist_command, section, numbers);
asking!(break_answer, timpanimist_break, section, numbers);
asking!(effective_time, timpanimist_effective_time, section, numbers);
asking!(line, timpanimist_line, text, bytes);

pub fn known_descriptor(cue: &Cue, lent: &mut Lent) -> u64 {
    let (about, to) = (&cue.section, &mut lent.numbers);
    unsafe {
        timpanimist_known_descriptor(
            about.as_ptr(),
            about.len(),
            cue.number,
            to.as_mut_ptr(),
            to.len(),
        )
    }
}

/// The text as a stream, ended by a newline behind what is held and then by the end of the stream.
/// What is held goes to the front of the lent memory, the answers behind it.
pub fn lines(cue: &Cue, lent: &mut Lent) -> u64 {
    let (carry, out) = lent.bytes.split_at_mut(LONGEST_TEXT);
    let [held, ..] = turn(0, &cue.text, carry, out);
    let [_, _, written] = turn(held, b"\n", carry, out);
    written + last_line(held, carry, &mut out[written as usize..])
}

/// The answers to a text of many lines, in one turn. What is held goes to the front of the lent memory,
/// the answers behind it.
pub fn turn_of(cue: &Cue, lent: &mut Lent) -> u64 {
    let (carry, out) = lent.bytes.split_at_mut(LONGEST_TEXT);
    let [_, _, written] = turn(0, &cue.text, carry, out);
    written
}

/// The answers to a stream that comes in these pieces, in turns with so much room.
pub fn stream<'a>(pieces: impl Iterator<Item = &'a [u8]>, room: usize) -> Vec<u8> {
    let (mut carry, mut out) = (vec![0; LONGEST_TEXT], vec![0; room]);
    let (mut answers, mut held) = (Vec::new(), 0);
    for mut piece in pieces {
        while !piece.is_empty() {
            let [next, taken, written] = turn(held, piece, &mut carry, &mut out);
            held = next;
            piece = &piece[taken as usize..];
            answers.extend(&out[..written as usize]);
        }
    }
    let mut line = [0; LONGEST_LINE];
    let count = last_line(held, &carry, &mut line);
    answers.extend(&line[..count as usize]);
    answers
}

fn last_line(held: u64, carry: &[u8], out: &mut [u8]) -> u64 {
    let (from, to) = (carry.as_ptr(), out.as_mut_ptr());
    unsafe { timpanimist_last_line(held, from, carry.len(), to, out.len()) }
}

/// What is held now, how much of the input was taken, and how much was written.
fn turn(held: u64, input: &[u8], carry: &mut [u8], out: &mut [u8]) -> [u64; 3] {
    let mut turn = [0; 3];
    let count = unsafe {
        timpanimist_lines(
            held,
            input.as_ptr(),
            input.len(),
            carry.as_mut_ptr(),
            carry.len(),
            out.as_mut_ptr(),
            out.len(),
            turn.as_mut_ptr(),
            turn.len(),
        )
    };
    assert_eq!(
        count, 3,
        "the carry and the turn have the room that is asked"
    );
    turn
}
