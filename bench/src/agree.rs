//! Before anything is timed: all three programs give the same answers, and leave the lent memory
//! alike, on cues whole and damaged.

mod streams;

use crate::cue::{Cue, Lent, LONGEST_LINE, REFUSED};
use crate::jobs::{Job, Jobs};
use crate::samples::{build, shapes};

/// The room for what short sections and sheets are damaged to.
const SOME_ROOM: usize = 400;

/// How many questions got the same answer from all three, or what differs.
pub fn check(jobs: &Jobs, cues: &[&Cue]) -> Result<usize, String> {
    let agree = Agree { jobs };
    let mut compared = 0;
    for cue in cues {
        compared += agree.whole(cue)?;
    }
    for section in shapes::too_long() {
        compared += agree.whole(&Cue::of_section(section))?;
    }
    for section in shapes::sections() {
        compared += agree.damaged_section(&section)?;
        compared += agree.damaged_sheet(Cue::of_section(section).sheet)?;
    }
    for text in shapes::texts() {
        compared += agree.damaged_text(&text)?;
    }
    let texts: Vec<_> = cues.iter().map(|cue| &cue.text[..]).collect();
    Ok(compared + streams::check(&texts)?)
}

struct Agree<'a> {
    jobs: &'a Jobs,
}

impl Agree<'_> {
    /// Every question about a cue, in enough room, in just enough and in too little.
    fn whole(&self, cue: &Cue) -> Result<usize, String> {
        let mut compared = 0;
        for job in self.jobs.all() {
            compared += same(job, cue, &Lent::ample())?;
        }
        for job in self.jobs.in_any_room() {
            let mut lent = Lent::ample();
            let count = (job.second.ask)(cue, &mut lent) as usize;
            for room in [count, count.wrapping_sub(1)] {
                if room < lent.bytes.len() {
                    compared += same(job, cue, &Lent::new(room, room))?;
                }
            }
        }
        Ok(compared)
    }

    /// The section, every length that it is cut to, and every byte changed to every other, each
    /// with the CRC put right; and every byte changed with the CRC left wrong.
    fn damaged_section(&self, section: &[u8]) -> Result<usize, String> {
        let mut compared = self.section(section)?;
        for place in 0..section.len() {
            compared += self.section(&section[..place])?;
            for change in 0..=255 {
                let mut other = section.to_vec();
                other[place] ^= change;
                if change == 0xFF {
                    compared += self.section(&other)?;
                }
                build::put_crc(&mut other);
                compared += self.section(&other)?;
            }
        }
        Ok(compared)
    }

    /// Every question about a section, and its line.
    fn section(&self, section: &[u8]) -> Result<usize, String> {
        let cue = Cue::of_section(section.to_vec());
        let lent = Lent::new(SOME_ROOM, SOME_ROOM);
        let mut compared = same(&self.jobs.line, &cue, &lent)?;
        for job in self.jobs.of_sections() {
            compared += same(job, &cue, &lent)?;
        }
        Ok(compared)
    }

    /// The sheet, every length that it is cut to, a number put in at every place, and every number
    /// changed: its low byte to every other, and each bit above.
    fn damaged_sheet(&self, sheet: Vec<u64>) -> Result<usize, String> {
        let mut compared = self.sheet(sheet.clone())?;
        let changes: Vec<u64> = (0..=255).chain((8..64).map(|bit| 1 << bit)).collect();
        for place in 0..sheet.len() {
            compared += self.sheet(sheet[..place].to_vec())?;
            let mut longer = sheet.clone();
            longer.insert(place, 1);
            compared += self.sheet(longer)?;
            for change in &changes {
                let mut other = sheet.clone();
                other[place] ^= change;
                compared += self.sheet(other)?;
            }
        }
        Ok(compared)
    }

    fn sheet(&self, sheet: Vec<u64>) -> Result<usize, String> {
        let cue = Cue {
            sheet,
            ..Cue::default()
        };
        same(&self.jobs.sheet_to_section, &cue, &Lent::new(SOME_ROOM, 0))
    }

    /// The text, every length that it is cut to, and every character changed to every byte.
    fn damaged_text(&self, text: &[u8]) -> Result<usize, String> {
        let mut compared = self.text(text.to_vec())?;
        for place in 0..text.len() {
            compared += self.text(text[..place].to_vec())?;
            for character in 0..=255 {
                let mut other = text.to_vec();
                other[place] = character;
                compared += self.text(other)?;
            }
        }
        Ok(compared)
    }

    fn text(&self, text: Vec<u8>) -> Result<usize, String> {
        let cue = Cue {
            text,
            ..Cue::default()
        };
        let lent = Lent::new(SOME_ROOM, 0);
        Ok(same(&self.jobs.text_to_section, &cue, &lent)? + same(&self.jobs.line, &cue, &lent)?)
    }
}

/// Whether the three programs answer alike in such memory, which stays alike too.
fn same(job: &Job, cue: &Cue, room: &Lent) -> Result<usize, String> {
    let answers = [&job.proved, &job.yardstick, &job.second].map(|program| {
        let mut lent = room.clone();
        ((program.ask)(cue, &mut lent), lent)
    });
    if answers[0] == answers[1] && answers[1] == answers[2] {
        return Ok(1);
    }
    let says = |number: u64| match number.checked_sub(REFUSED) {
        Some(row) => format!("refused by {row}"),
        None => number.to_string(),
    };
    Err(format!(
        "{}: proved {}, yardstick {}, second {}, or else the memory differs, of section {:02x?}, \
         text {:?}, sheet {:?}",
        job.name,
        says(answers[0].0),
        says(answers[1].0),
        says(answers[2].0),
        cue.section,
        String::from_utf8_lossy(&cue.text),
        cue.sheet
    ))
}
