//! The stack that each call takes, at most over many cues, and the stack that the tally runs in.

use crate::cue::{Cue, Lent};
use crate::jobs::{Jobs, Program};
use crate::proved;
use std::ffi::c_void;
use std::fs::File;
use std::path::Path;
use std::process::{Command, Stdio};

extern "C" {
    fn stack_of(run: extern "C" fn(*mut c_void), about: *mut c_void) -> usize;
}

/// One question, as the thread gets it.
struct Question<'a> {
    program: &'a Program,
    cue: &'a Cue,
    lent: Lent,
}

extern "C" fn run(question: *mut c_void) {
    // the pointer is that of `bytes`' own question, which waits for the thread
    let question = unsafe { &mut *question.cast::<Question>() };
    (question.program.ask)(question.cue, &mut question.lent);
}

fn bytes(program: &Program, cue: &Cue) -> usize {
    let mut question = Question {
        program,
        cue,
        lent: Lent::ample(),
    };
    unsafe { stack_of(run, (&raw mut question).cast()) }
}

/// The bytes that each call takes: the proved library's, and the yardstick's where it has that one.
/// What a call of nothing takes is taken away.
pub fn calls(jobs: &Jobs, cues: &[&Cue]) -> Vec<(&'static str, usize, Option<usize>)> {
    let nothing = bytes(&Program::new(|_, _| 0), cues[0]);
    let most = |program: &Program| {
        let each = cues.iter().map(|cue| bytes(program, cue));
        each.max().unwrap_or(0).saturating_sub(nothing)
    };
    let mut all: Vec<_> = jobs
        .all()
        .map(|job| (job.name, most(&job.proved), Some(most(&job.yardstick))))
        .into();
    all.push((
        "lines and last line",
        most(&Program::new(proved::lines)),
        None,
    ));
    let others = proved::others::all().iter().map(most).max();
    all.push(("every other, at most", others.unwrap_or(0), None));
    all
}

/// The least stack, in pages of 4 KiB, with which the program answers the file to its end: found by
/// halving the limit that it runs under.
pub fn pages(program: &Path, file: &Path) -> Result<usize, String> {
    let (mut too_few, mut enough) = (0, 2_048);
    while too_few + 1 < enough {
        let middle = (too_few + enough) / 2;
        if runs(program, file, 4 * middle)? {
            enough = middle;
        } else {
            too_few = middle;
        }
    }
    Ok(enough)
}

fn runs(program: &Path, file: &Path, kilobytes: usize) -> Result<bool, String> {
    let failed = |error: std::io::Error| error.to_string();
    let status = Command::new("sh")
        .args(["-c", "ulimit -s \"$0\" && exec \"$1\""])
        .arg(kilobytes.to_string())
        .arg(program)
        .env_clear()
        .stdin(File::open(file).map_err(failed)?)
        .stdout(Stdio::null())
        .stderr(Stdio::null())
        .status();
    Ok(status.map_err(failed)?.success())
}
