//! Rounds: in each, the proved library and the yardstick answer the same cues, one after the other,
//! and the next round starts with the other. A disturbance longer than a round meets both alike, so
//! that ratios hold where times do not. The second program, much slower, is timed by itself.

use crate::cue::{Cue, Lent};
use crate::jobs::{Job, Program};
use std::time::Instant;

/// About how long the proved library takes in a round, at least.
const ROUND_NS: f64 = 40_000.0;

/// About how long the proved library and the yardstick take in all rounds together.
const ALL_NS: f64 = 200e6;

/// How many rounds there are at least and at most, and how many the second program has.
const FEWEST: usize = 101;
const MOST: usize = 1_001;
const OF_SECOND: usize = 31;

/// What the rounds of a job came to: medians in nanoseconds of a call, and how the proved library's
/// times compare with the yardstick's.
pub struct Line {
    pub proved: f64,
    pub c: f64,
    /// The median of the rounds' ratios.
    pub ratio: f64,
    /// The ratio of the least times, for which other work on the machine matters least.
    pub least: f64,
}

/// Times one job on these cues.
pub fn time(job: &Job, cues: &[Cue]) -> Line {
    race(&job.proved, &job.yardstick, cues, &Lent::ample())
}

/// Times the proved library and the yardstick on these cues, in such memory.
pub fn race(proved: &Program, c: &Program, cues: &[Cue], room: &Lent) -> Line {
    let mut proved = Contender::new(proved, cues, room);
    let mut c = Contender::new(c, cues, room);
    let passes = (ROUND_NS / proved.once()).ceil() as usize;
    (proved.passes, c.passes) = (passes, passes);
    let round = proved.once() + c.once();
    let rounds = ((ALL_NS / round) as usize).clamp(FEWEST, MOST);
    for turn in 0..rounds {
        if turn % 2 == 0 {
            proved.run();
            c.run();
        } else {
            c.run();
            proved.run();
        }
    }
    let ratios = proved.times.iter().zip(&c.times).map(|(a, b)| a / b);
    Line {
        proved: median(&proved.times),
        c: median(&c.times),
        ratio: median(&ratios.collect::<Vec<_>>()),
        least: least(&proved.times) / least(&c.times),
    }
}

/// The second program's median, in nanoseconds of a call.
pub fn time_second(job: &Job, cues: &[Cue]) -> f64 {
    let mut second = Contender::new(&job.second, cues, &Lent::ample());
    for _ in 0..OF_SECOND {
        second.run();
    }
    median(&second.times)
}

/// One program at a job, and the nanoseconds of a call in each of its rounds.
struct Contender<'a> {
    program: &'a Program,
    cues: &'a [Cue],
    passes: usize,
    lent: Lent,
    times: Vec<f64>,
}

impl<'a> Contender<'a> {
    fn new(program: &'a Program, cues: &'a [Cue], room: &Lent) -> Contender<'a> {
        Contender {
            program,
            cues,
            passes: 1,
            lent: room.clone(),
            times: Vec::new(),
        }
    }

    /// The nanoseconds of a round, the second of two, since the first finds nothing in the caches.
    fn once(&mut self) -> f64 {
        self.took();
        self.took()
    }

    fn run(&mut self) {
        let calls = self.passes * self.cues.len();
        let took = self.took();
        self.times.push(took / calls as f64);
    }

    fn took(&mut self) -> f64 {
        let start = Instant::now();
        (self.program.passes)(self.cues, self.passes, &mut self.lent);
        start.elapsed().as_nanos() as f64
    }
}

pub fn median(times: &[f64]) -> f64 {
    let mut sorted = times.to_vec();
    sorted.sort_by(f64::total_cmp);
    sorted[sorted.len() / 2]
}

pub fn least(times: &[f64]) -> f64 {
    times.iter().copied().fold(f64::INFINITY, f64::min)
}
