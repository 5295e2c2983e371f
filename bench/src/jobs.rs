//! The jobs: one question each, put to the proved library, to the yardstick and to the second
//! program in the same form, so that what is timed is what was compared.

use crate::cue::{Cue, Lent};
use crate::{by_second, proved, yardstick};
use std::hint::black_box;

/// One question.
type Ask = dyn Fn(&Cue, &mut Lent) -> u64;

/// The same about all cues, so many times over: a loop of its own, so that a call costs only itself.
type Passes = dyn Fn(&[Cue], usize, &mut Lent);

/// One program at one job.
pub struct Program {
    pub ask: Box<Ask>,
    pub passes: Box<Passes>,
}

impl Program {
    pub fn new(ask: impl Fn(&Cue, &mut Lent) -> u64 + Copy + 'static) -> Program {
        Program {
            ask: Box::new(ask),
            passes: Box::new(move |cues, passes, lent| {
                for _ in 0..passes {
                    for cue in cues {
                        black_box(ask(black_box(cue), lent));
                    }
                }
            }),
        }
    }
}

pub struct Job {
    pub name: &'static str,
    pub about: About,
    pub proved: Program,
    pub yardstick: Program,
    pub second: Program,
}

/// What of a cue a job asks about.
#[derive(Clone, Copy)]
pub enum About {
    Section,
    Text,
    Sheet,
}

impl Job {
    /// The cues that have what the job asks about; every line is a text.
    pub fn of(&self, cues: &[Cue]) -> Vec<Cue> {
        let has = |cue: &&Cue| match self.about {
            About::Section => !cue.section.is_empty(),
            About::Text => true,
            About::Sheet => !cue.sheet.is_empty(),
        };
        cues.iter().filter(has).cloned().collect()
    }
}

/// A job, whose three functions have one name.
macro_rules! job {
    ($name:expr, $about:ident, $ask:ident) => {
        Job {
            name: $name,
            about: About::$about,
            proved: Program::new(proved::$ask),
            yardstick: Program::new(yardstick::$ask),
            second: Program::new(by_second::$ask),
        }
    };
}

/// Every job, by what it asks about.
pub struct Jobs {
    pub crc: Job,
    pub accept: Job,
    pub text_to_section: Job,
    pub section_to_text: Job,
    pub section_to_sheet: Job,
    pub sheet_to_section: Job,
    pub command: Job,
    pub known_descriptor: Job,
    pub break_answer: Job,
    pub effective_time: Job,
    pub line: Job,
}

impl Jobs {
    pub fn new() -> Jobs {
        Jobs {
            crc: job!("CRC", Section, crc32),
            accept: job!("accept", Section, accept),
            text_to_section: job!("text to section", Text, text_to_section),
            section_to_text: job!("section to text", Section, section_to_text),
            section_to_sheet: job!("section to sheet", Section, section_to_sheet),
            sheet_to_section: job!("sheet to section", Sheet, sheet_to_section),
            command: job!("command", Section, command),
            known_descriptor: job!("last known descriptor", Section, known_descriptor),
            break_answer: job!("break", Section, break_answer),
            effective_time: job!("effective time", Section, effective_time),
            line: job!("line", Text, line),
        }
    }

    pub fn all(&self) -> [&Job; 11] {
        [
            &self.crc,
            &self.accept,
            &self.break_answer,
            &self.effective_time,
            &self.command,
            &self.known_descriptor,
            &self.text_to_section,
            &self.section_to_text,
            &self.section_to_sheet,
            &self.sheet_to_section,
            &self.line,
        ]
    }

    /// Those that ask about the section.
    pub fn of_sections(&self) -> [&Job; 8] {
        [
            &self.crc,
            &self.accept,
            &self.break_answer,
            &self.effective_time,
            &self.command,
            &self.known_descriptor,
            &self.section_to_text,
            &self.section_to_sheet,
        ]
    }

    /// Those that can be asked in any room.
    pub fn in_any_room(&self) -> [&Job; 8] {
        [
            &self.break_answer,
            &self.effective_time,
            &self.command,
            &self.known_descriptor,
            &self.text_to_section,
            &self.section_to_text,
            &self.section_to_sheet,
            &self.sheet_to_section,
        ]
    }
}
