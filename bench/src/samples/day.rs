//! A day of lines: those of samples/day.txt over and over, each time with another pts_adjustment, as
//! many made by chance, all in an order by chance. Without that file all are made.

use super::random::{self, Chance};
use crate::cue::Cue;
use std::fs;
use std::path::Path;

/// So many that neither their branches nor their bytes stay in the processor's fastest memory.
const CUES: usize = 2_000;

const SEED: u64 = 0x54_49_4D_50;

pub struct Day {
    /// The lines that ship with the repository; none where the file is not there.
    shipped: Vec<Vec<u8>>,
}

impl Day {
    pub fn new(root: &Path) -> Day {
        let all = fs::read(root.join("samples/day.txt")).unwrap_or_default();
        let lines = all.split_inclusive(|byte| *byte == b'\n');
        let lines = lines.map(|line| line.strip_suffix(b"\n").unwrap_or(line).to_vec());
        Day {
            shipped: lines.collect(),
        }
    }

    /// So many lines.
    pub fn lines(&self, count: usize) -> Vec<Vec<u8>> {
        let mut chance = Chance::new(SEED);
        let mut lines = Vec::with_capacity(count);
        for line in self.shipped.iter().cycle().take(count / 2) {
            let cue = Cue::of_text(line.clone());
            lines.push(random::at_another_time(cue, &mut chance));
        }
        while lines.len() < count {
            lines.push(random::line(&mut chance));
        }
        chance.shuffle(&mut lines);
        lines
    }

    pub fn cues(&self) -> Vec<Cue> {
        self.lines(CUES).into_iter().map(Cue::of_text).collect()
    }

    /// What the lines are, in a few words.
    pub fn says(&self) -> String {
        match self.shipped.len() {
            0 => "all made by chance".to_string(),
            lines => format!(
                "half the {lines} lines of samples/day.txt over and over, half made by chance"
            ),
        }
    }
}
