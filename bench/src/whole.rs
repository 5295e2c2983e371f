//! Lines end to end: each program reads a file of lines and writes its answers to nowhere, at several
//! stack offsets.

use crate::offsets::{self, Spread};
use crate::rounds::{least, median};
use crate::samples::day::Day;
use std::ffi::{c_int, c_long, c_ulong};
use std::fs::{self, File};
use std::io;
use std::path::{Path, PathBuf};
use std::process::{Command, Stdio};
use std::time::Instant;

/// How many lines the file has, and the file for the second program, which is much slower.
const LINES: usize = 500_000;
const FEWER_LINES: usize = 20_000;

/// How often each program runs at an offset, of which the least times count.
const RUNS: usize = 3;

/// The programs, and the folder in which the files are made.
pub struct Programs {
    pub tally: PathBuf,
    pub yardstick: PathBuf,
    pub second: PathBuf,
    pub folder: PathBuf,
}

/// Nanoseconds of a line: the processor's, and those from a program's start to its end.
#[derive(Clone, Copy)]
struct Took {
    processor: f64,
    elapsed: f64,
}

/// The processor's over the offsets, and the median from start to end.
pub struct Timed {
    pub processor: Spread,
    pub elapsed: f64,
}

/// The programs' times, and the file that they read.
pub struct Whole {
    pub file: PathBuf,
    pub lines: usize,
    pub bytes: usize,
    pub tally: Timed,
    pub yardstick: Timed,
    pub second: Timed,
}

/// The files of lines.
pub struct Files {
    all: PathBuf,
    fewer: PathBuf,
}

/// Makes the files, and compares the programs' answers to them.
pub fn compare(programs: &Programs, day: &Day) -> Result<Files, String> {
    let all = written(programs, day, "lines.txt", LINES)?;
    let fewer = written(programs, day, "fewer-lines.txt", FEWER_LINES)?;
    if programs.tally().answers(&fewer)? != programs.second().answers(&fewer)? {
        return Err("the tally and the second program answer a file differently".to_string());
    }
    if programs.tally().answers(&all)? != programs.yardstick().answers(&all)? {
        return Err("the tally and the yardstick answer a file differently".to_string());
    }
    Ok(Files { all, fewer })
}

pub fn time(programs: &Programs, files: Files) -> Result<Whole, String> {
    let before = laid_out(NOT_BY_CHANCE);
    let mut times = [Vec::new(), Vec::new(), Vec::new()];
    for offset in offsets::all() {
        for (times, time) in times.iter_mut().zip(at(offset, programs, &files)?) {
            times.push(time);
        }
    }
    laid_out(before);
    let [tally, yardstick, second] = times.map(|times| timed(&times));
    Ok(Whole {
        lines: LINES,
        bytes: fs::metadata(&files.all).map_err(failed)?.len() as usize,
        tally,
        yardstick,
        second,
        file: files.all,
    })
}

/// What each program takes at an offset.
fn at(offset: usize, programs: &Programs, files: &Files) -> Result<[Took; 3], String> {
    let mut took = [Vec::new(), Vec::new(), Vec::new()];
    for _ in 0..RUNS {
        took[0].push(programs.tally().took(&files.all, LINES, offset)?);
        took[1].push(programs.yardstick().took(&files.all, LINES, offset)?);
        took[2].push(programs.second().took(&files.fewer, FEWER_LINES, offset)?);
    }
    Ok(took.map(|runs| Took {
        processor: least(&each(&runs, |took| took.processor)),
        elapsed: least(&each(&runs, |took| took.elapsed)),
    }))
}

fn timed(took: &[Took]) -> Timed {
    Timed {
        processor: Spread::of(&each(took, |took| took.processor)),
        elapsed: median(&each(took, |took| took.elapsed)),
    }
}

fn each(took: &[Took], which: fn(&Took) -> f64) -> Vec<f64> {
    took.iter().map(which).collect()
}

extern "C" {
    fn personality(persona: c_ulong) -> c_int;
}

/// Linux's word for stacks that lie where the environment puts them and not by chance.
const NOT_BY_CHANCE: c_int = 0x0004_0000;

/// How programs that are started from here on are laid out, and how they were before. Where the system
/// does not grant it, chance moves each stack as well, and the offsets are as many all the same.
fn laid_out(persona: c_int) -> c_int {
    unsafe { personality(persona as c_ulong) }
}

fn written(programs: &Programs, day: &Day, name: &str, lines: usize) -> Result<PathBuf, String> {
    let path = programs.folder.join(name);
    let mut all = day.lines(lines).join(&b'\n');
    all.push(b'\n');
    fs::write(&path, all).map_err(failed)?;
    Ok(path)
}

impl Programs {
    pub fn new(tally: &str, yardstick: &str, second: &str, folder: &str) -> Programs {
        Programs {
            tally: tally.into(),
            yardstick: yardstick.into(),
            second: second.into(),
            folder: folder.into(),
        }
    }

    fn tally(&self) -> Run<'_> {
        Run(&self.tally, None)
    }

    fn yardstick(&self) -> Run<'_> {
        Run(&self.yardstick, None)
    }

    fn second(&self) -> Run<'_> {
        Run(&self.second, Some("tally"))
    }
}

/// A program and its argument.
struct Run<'a>(&'a Path, Option<&'a str>);

impl Run<'_> {
    fn command(&self, file: &Path) -> Result<Command, String> {
        let mut command = Command::new(self.0);
        command
            .args(self.1)
            .stdin(File::open(file).map_err(failed)?);
        Ok(command)
    }

    fn answers(&self, file: &Path) -> Result<Vec<u8>, String> {
        let output = self.command(file)?.output().map_err(failed)?;
        if output.status.success() && output.stderr.is_empty() {
            Ok(output.stdout)
        } else {
            Err(format!("{} fails", self.0.display()))
        }
    }

    /// What it takes for a line. A system keeps the environment above the stack, so that a variable as
    /// long as the offset moves it down so far.
    fn took(&self, file: &Path, lines: usize, offset: usize) -> Result<Took, String> {
        let mut command = self.command(file)?;
        command.env_clear().env("OFFSET", "x".repeat(offset));
        let (start, before) = (Instant::now(), processor());
        let status = command.stdout(Stdio::null()).status().map_err(failed)?;
        let (elapsed, after) = (start.elapsed().as_nanos() as f64, processor());
        if status.success() {
            Ok(Took {
                processor: (after - before) / lines as f64,
                elapsed: elapsed / lines as f64,
            })
        } else {
            Err(format!("{} fails", self.0.display()))
        }
    }
}

extern "C" {
    fn getrusage(who: c_int, usage: *mut [c_long; 18]) -> c_int;
}

/// The nanoseconds that the processor gave to the programs that have ended, and to the system for them.
/// Other work on the machine makes a program wait, which is no part of this.
fn processor() -> f64 {
    const PROGRAMS_THAT_ENDED: c_int = -1;
    let mut usage = [0; 18];
    unsafe { getrusage(PROGRAMS_THAT_ENDED, &mut usage) };
    let [seconds, microseconds, of_system, microseconds_of_system, ..] = usage;
    (seconds + of_system) as f64 * 1e9 + (microseconds + microseconds_of_system) as f64 * 1e3
}

fn failed(error: io::Error) -> String {
    error.to_string()
}
