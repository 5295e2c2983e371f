//! The second program's answers in the form of the other two: written to lent memory.

use crate::cue::{Cue, Lent, REFUSED};
use second::reading::{self, numbers, Reading};
use second::refusal::ROOM;
use second::{house, lines, sheet, text};

pub fn crc32(cue: &Cue, _: &mut Lent) -> u64 {
    second::crc::crc32(&cue.section).into()
}

pub fn accept(cue: &Cue, _: &mut Lent) -> u64 {
    second::section::accept(&cue.section).map_or_else(u64::from, |_| 0)
}

pub fn text_to_section(cue: &Cue, lent: &mut Lent) -> u64 {
    given(
        text::text_to_section(&cue.text, usize::MAX),
        &mut lent.bytes,
    )
}

pub fn section_to_text(cue: &Cue, lent: &mut Lent) -> u64 {
    given(
        text::section_to_text(&cue.section, usize::MAX),
        &mut lent.bytes,
    )
}

pub fn section_to_sheet(cue: &Cue, lent: &mut Lent) -> u64 {
    given(sheet::sheet_of(&cue.section), &mut lent.numbers)
}

pub fn sheet_to_section(cue: &Cue, lent: &mut Lent) -> u64 {
    given(sheet::section_of(&cue.sheet), &mut lent.bytes)
}

pub fn command(cue: &Cue, lent: &mut Lent) -> u64 {
    read(reading::command(&cue.section), lent)
}

pub fn known_descriptor(cue: &Cue, lent: &mut Lent) -> u64 {
    read(reading::descriptor(&cue.section, cue.number as u64), lent)
}

pub fn break_answer(cue: &Cue, lent: &mut Lent) -> u64 {
    read(house::break_answer(&cue.section), lent)
}

pub fn effective_time(cue: &Cue, lent: &mut Lent) -> u64 {
    read(house::effective_time(&cue.section), lent)
}

pub fn line(cue: &Cue, lent: &mut Lent) -> u64 {
    let line = lines::answer(&cue.text) + "\n";
    given(Ok(line.into_bytes()), &mut lent.bytes)
}

fn read(answer: Result<impl Reading, u8>, lent: &mut Lent) -> u64 {
    given(answer.map(|answer| numbers(&answer)), &mut lent.numbers)
}

/// Writes the answer to the front of out, if there is room.
fn given<T: Copy>(answer: Result<Vec<T>, u8>, out: &mut [T]) -> u64 {
    match answer {
        Ok(all) if all.len() > out.len() => REFUSED + u64::from(ROOM),
        Ok(all) => {
            out[..all.len()].copy_from_slice(&all);
            all.len() as u64
        }
        Err(row) => REFUSED + u64::from(row),
    }
}
