//! Times the proved library, the C yardstick and the second program in one process, round by round,
//! and the three as programs on a file of lines. It first compares their answers, and stops with
//! status 1 where they differ; with the word `agree` it does that alone. The tables go to standard
//! output, everything else to standard error.

mod agree;
mod by_second;
mod cue;
mod jobs;
mod offsets;
mod others;
mod profile;
mod proved;
mod rounds;
mod samples;
mod stack;
mod tables;
mod whole;
mod yardstick;

use cue::Cue;
use jobs::Jobs;
use profile::Asked;
use samples::day::Day;
use samples::{Ring, ACCEPTED_KINDS};
use std::env;
use std::path::Path;
use std::process::ExitCode;
use whole::Programs;

/// How many cues are asked for the stack: every kind and every length, and some of the day's.
const STACK_CUES: usize = 500;

fn main() -> ExitCode {
    yardstick::prepare();
    let words: Vec<_> = env::args().skip(1).collect();
    let words: Vec<_> = words.iter().map(String::as_str).collect();
    let done = match words[..] {
        ["questions"] => {
            profile::questions();
            Ok(())
        }
        ["profile", root] => profile::run(Path::new(root), None),
        ["profile", root, question, program] => {
            profile::run(Path::new(root), Some(Asked { question, program }))
        }
        ["agree", root, tally, yardstick, second, folder] => {
            let programs = Programs::new(tally, yardstick, second, folder);
            run(Path::new(root), &programs, false)
        }
        [root, tally, yardstick, second, folder] => {
            let programs = Programs::new(tally, yardstick, second, folder);
            run(Path::new(root), &programs, true)
        }
        _ => Err("usage: bench [agree] ROOT TALLY YARDSTICK SECOND FOLDER".to_string()),
    };
    match done {
        Ok(()) => ExitCode::SUCCESS,
        Err(wrong) => {
            eprintln!("bench: {wrong}");
            ExitCode::FAILURE
        }
    }
}

/// Compares all answers, and times them if that is asked.
fn run(root: &Path, programs: &Programs, timed: bool) -> Result<(), String> {
    let jobs = Jobs::new();
    let day = Day::new(root);
    let (cues, kinds, lengths) = (day.cues(), samples::kinds(), samples::lengths());
    let all = every(&cues, &kinds, &lengths);
    let files = whole::compare(programs, &day)?;
    let compared = agree::check(&jobs, &all)?;
    eprintln!("bench: the three programs give the same {compared} answers");
    if !timed {
        return Ok(());
    }
    println!("The three programs gave the same {compared} answers before anything was timed.");

    tables::day(&jobs, &cues, &day.says());
    sections(&jobs, &kinds, &lengths);
    let whole = whole::time(programs, files)?;
    tables::whole(&whole);
    tables::offsets(&offsets::time(&jobs, &cues)?);
    tables::others(&others::time(&jobs.break_answer, &cues, &programs.folder)?);
    tables::stack(&stack::calls(&jobs, &all[all.len() - STACK_CUES..]));
    tables::pages(stack::pages(&programs.tally, &whole.file)?);
    Ok(())
}

/// The tables by kind and by length.
fn sections(jobs: &Jobs, kinds: &[Ring], lengths: &[Ring]) {
    let (accept, break_answer, line) = (&jobs.accept, &jobs.break_answer, &jobs.line);
    tables::rings("Kinds of sections", kinds, &[accept, break_answer, line]);
    let by_length = [&jobs.crc, accept, break_answer, line];
    tables::rings("Lengths", lengths, &by_length);
    let readings = [&jobs.effective_time, &jobs.command, &jobs.known_descriptor];
    tables::rings("Typed readings", &kinds[..ACCEPTED_KINDS], &readings);
    let texts = [&jobs.text_to_section, &jobs.section_to_text];
    tables::rings("Texts", &samples::texts(), &texts);
    let sheets = [&jobs.section_to_sheet, &jobs.sheet_to_section];
    tables::rings("Sheets", lengths, &sheets);
}

/// Every cue that is timed.
fn every<'a>(cues: &'a [Cue], kinds: &'a [Ring], lengths: &'a [Ring]) -> Vec<&'a Cue> {
    let rings = kinds.iter().chain(lengths);
    cues.iter()
        .chain(rings.flat_map(|ring| &ring.cues))
        .collect()
}
