//! Other libraries, where they are installed: each is a program of its own (`others` beside this
//! folder), which accepts the day's sections and answers for the break as well as its library can.

use crate::cue::{Cue, Lent, REFUSED};
use crate::jobs::{Job, Program};
use crate::rounds::{self, Line};
use std::fs;
use std::path::Path;
use std::process::{Command, Output};

/// The libraries, and their programs.
const LIBRARIES: [(&str, &str); 2] = [("biTStream", "bitstream"), ("GStreamer", "gstreamer")];

pub struct Others {
    pub sections: usize,
    /// The proved library and the yardstick, on the same sections.
    pub ours: Line,
    pub libraries: [(&'static str, Library); 2],
}

pub enum Library {
    /// Why there is none, in a word or two.
    Missing(String),
    /// The median of a call, and how many answers are the proved library's.
    Timed { median: f64, same: usize },
}

/// Times the libraries whose programs `run` could make in the folder.
pub fn time(job: &Job, cues: &[Cue], folder: &Path) -> Result<Others, String> {
    let cues = job.of(cues);
    let file = folder.join("sections.bin");
    fs::write(&file, behind_lengths(&cues)).map_err(|error| error.to_string())?;
    let answers: Vec<_> = cues.iter().map(|cue| answer(&job.proved, cue)).collect();
    let found = |program| library(&folder.join(program), &file, &answers);
    Ok(Others {
        sections: cues.len(),
        ours: rounds::time(job, &cues),
        libraries: LIBRARIES.map(|(name, program)| (name, found(program))),
    })
}

/// Each section behind its length in two bytes.
fn behind_lengths(cues: &[Cue]) -> Vec<u8> {
    let lengths = cues.iter().map(|cue| cue.section.len() as u16);
    let sections = lengths.zip(cues);
    sections
        .flat_map(|(length, cue)| [&length.to_be_bytes(), &cue.section[..]].concat())
        .collect()
}

/// The answer as those programs write it.
fn answer(program: &Program, cue: &Cue) -> String {
    let mut lent = Lent::ample();
    if (program.ask)(cue, &mut lent) >= REFUSED {
        return "R".to_string();
    }
    match lent.numbers[..2] {
        [0, _] => "N".to_string(),
        [1, ticks] => format!("A {ticks}"),
        [2, _] => "B".to_string(),
        _ => "X".to_string(),
    }
}

/// Runs a library's program, or says why there is none. One that fails takes no other table with it.
fn library(program: &Path, file: &Path, answers: &[String]) -> Library {
    let word = fs::read_to_string(program.with_extension("missing"));
    let timed = || timed(&Command::new(program).arg(file).output().ok()?, answers);
    match word {
        Ok(word) => Library::Missing(word.trim().to_string()),
        Err(_) => timed().unwrap_or(Library::Missing("failing".to_string())),
    }
}

/// What a program wrote: its median, and a line for each answer.
fn timed(output: &Output, answers: &[String]) -> Option<Library> {
    let said = std::str::from_utf8(&output.stdout).ok()?;
    let mut lines = said.lines();
    let median = lines.next()?.parse().ok()?;
    let same = lines.zip(answers).filter(|(one, other)| one == other);
    let same = same.count();
    let timed = Library::Timed { median, same };
    output.status.success().then_some(timed)
}
