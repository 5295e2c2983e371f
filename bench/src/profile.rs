//! One job on the cues of a day, for a profiler to watch: see `profile` beside this folder.

use crate::cue::Lent;
use crate::jobs::Jobs;
use crate::samples::day::Day;
use std::path::Path;

const PASSES: usize = 5;

/// A question by its name, and who is asked: `proved` or `C`.
pub struct Asked<'a> {
    pub question: &'a str,
    pub program: &'a str,
}

/// The names of the questions, in the order of the tables.
pub fn questions() {
    for job in Jobs::new().all() {
        println!("{}", job.name);
    }
}

/// Asks the question of its cues, and prints how many calls that were. Everything but the calls is
/// the same for each question and for none, so that one count without a question takes it off all.
pub fn run(root: &Path, asked: Option<Asked>) -> Result<(), String> {
    let (jobs, cues, mut lent) = (Jobs::new(), Day::new(root).cues(), Lent::ample());
    let all = jobs.all().map(|job| (job, job.of(&cues)));
    let mut calls = 0;
    if let Some(Asked { question, program }) = asked {
        let found = all.iter().find(|(job, _)| job.name == question);
        let (job, cues) = found.ok_or(format!("there is no question {question:?}"))?;
        let program = match program {
            "proved" => &job.proved,
            "C" => &job.yardstick,
            _ => return Err("the program is proved or C".to_string()),
        };
        (program.passes)(cues, PASSES, &mut lent);
        calls = PASSES * cues.len();
    }
    println!("{calls}");
    Ok(())
}
