//! Stack offsets: the same calls with the stack further down. A time may depend on where the stack
//! lies, by which stores and loads then meet in a page or a cache line, and one place hides that.

use crate::cue::{Cue, Lent, LONGEST_LINE, LONGEST_TEXT};
use crate::jobs::{Jobs, Program};
use crate::rounds::{self, least, median, Line};
use crate::{proved, yardstick};
use std::ffi::c_void;

/// How many offsets there are, and how far they lie apart: a sixteenth of a page, and 16 bytes more,
/// so that they differ within a cache line too.
pub const OFFSETS: usize = 16;
const STEP: usize = 256 + 16;

/// The offsets, in bytes.
pub fn all() -> impl Iterator<Item = usize> {
    (0..OFFSETS).map(|number| number * STEP)
}

/// What the times at all offsets came to, in nanoseconds.
pub struct Spread {
    pub least: f64,
    pub median: f64,
    pub worst: f64,
}

impl Spread {
    pub fn of(times: &[f64]) -> Spread {
        Spread {
            least: least(times),
            median: median(times),
            worst: times.iter().copied().fold(0.0, f64::max),
        }
    }
}

/// The proved library and the yardstick at one question, for a line.
pub struct Lines {
    pub name: &'static str,
    pub proved: Spread,
    pub c: Spread,
}

/// A line a call, and all lines as a stream in one call.
pub fn time(jobs: &Jobs, cues: &[Cue]) -> Result<[Lines; 2], String> {
    let line = (&jobs.line.proved, &jobs.line.yardstick);
    let stream = (
        &Program::new(proved::turn_of),
        &Program::new(yardstick::turn_of),
    );
    let texts: Vec<_> = cues.iter().map(|cue| &cue.text[..]).collect();
    let mut text = texts.join(&b'\n');
    text.push(b'\n');
    let room = Lent::new(LONGEST_TEXT + 4 * text.len() + LONGEST_LINE, 0);
    let whole = [Cue {
        text,
        ..Cue::default()
    }];
    same(stream, &whole[0], &room)?;
    Ok([
        spread("line", line, cues, &Lent::ample(), 1),
        spread("lines of a stream", stream, &whole, &room, cues.len()),
    ])
}

/// Whether the two give the same answers to the stream.
fn same((proved, c): (&Program, &Program), cue: &Cue, room: &Lent) -> Result<(), String> {
    let answers = [proved, c].map(|program| {
        let mut lent = room.clone();
        let count = (program.ask)(cue, &mut lent) as usize;
        lent.bytes[LONGEST_TEXT..][..count].to_vec()
    });
    if answers[0] == answers[1] {
        Ok(())
    } else {
        Err("the proved library and the yardstick answer a stream differently".to_string())
    }
}

/// The medians at each offset, for a line, of which a call has so many.
fn spread(
    name: &'static str,
    (proved, c): (&Program, &Program),
    cues: &[Cue],
    room: &Lent,
    lines: usize,
) -> Lines {
    let times = all().map(|bytes| below(bytes, &|| rounds::race(proved, c, cues, room)));
    let times: Vec<_> = times.collect();
    let of = |which: fn(&Line) -> f64| {
        let times = times.iter().map(|line| which(line) / lines as f64);
        Spread::of(&times.collect::<Vec<_>>())
    };
    Lines {
        name,
        proved: of(|line| line.proved),
        c: of(|line| line.c),
    }
}

extern "C" {
    fn run_below(bytes: usize, run: extern "C" fn(*mut c_void), about: *mut c_void);
}

/// What is run, and what comes of it.
struct Run<'a> {
    measure: &'a dyn Fn() -> Line,
    line: Option<Line>,
}

extern "C" fn run(about: *mut c_void) {
    // the pointer is that of `below`'s own run, which waits for this
    let run = unsafe { &mut *about.cast::<Run>() };
    run.line = Some((run.measure)());
}

/// Measures with the stack so many bytes further down.
fn below(bytes: usize, measure: &dyn Fn() -> Line) -> Line {
    let mut about = Run {
        measure,
        line: None,
    };
    unsafe { run_below(bytes, run, (&raw mut about).cast()) };
    about.line.expect("it was run")
}
