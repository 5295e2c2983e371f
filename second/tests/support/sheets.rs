//! The bench's questions about sheets. Each is put in rooms of every kind, so that one question
//! compares the answer, the refusal for want of room, and all that must stay as it was.

use super::report::{pasted_section, pasted_sheet};
use super::rooms::{in_room, rooms};
use super::Bench;
use crate::proved;
use second::refusal::ROOM;
use second::sheet;

/// As much as the answer could be thought to need; the longest section has fewer bytes than 4,600,
/// and its sheet fewer numbers.
fn plenty(asked: usize) -> usize {
    (2 * asked + 8).min(4_600)
}

impl Bench {
    /// The sheet of a section: what is answered where there is room enough.
    pub fn section_to_sheet(&mut self, section: &[u8]) -> Result<Vec<u64>, u8> {
        let answer = sheet::sheet_of(section);
        self.to_sheet.count(*answer.as_ref().err().unwrap_or(&0));
        for room in rooms(&mut self.random, &answer, plenty(section.len())) {
            let answer = in_room(&answer, room);
            let paste = || pasted_section(section, room);
            let call = proved::section_to_sheet;
            self.same_written("section_to_sheet", section, room, &answer, call, paste);
            if answer == Err(ROOM) {
                self.to_sheet.count(ROOM);
            }
        }
        answer
    }

    /// The section of a sheet: what is answered where there is room enough.
    pub fn sheet_to_section(&mut self, sheet: &[u64]) -> Result<Vec<u8>, u8> {
        let answer = sheet::section_of(sheet);
        self.to_section.count(*answer.as_ref().err().unwrap_or(&0));
        for room in rooms(&mut self.random, &answer, plenty(sheet.len())) {
            let answer = in_room(&answer, room);
            let paste = || pasted_sheet(sheet, room);
            let call = proved::sheet_to_section;
            self.same_written("sheet_to_section", sheet, room, &answer, call, paste);
            if answer == Err(ROOM) {
                self.to_section.count(ROOM);
            }
        }
        answer
    }
}
