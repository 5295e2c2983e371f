//! The tables, as they stand in docs/BENCHMARKS.md. Times are medians, in nanoseconds of a call.

use crate::cue::Cue;
use crate::jobs::{Job, Jobs};
use crate::offsets::{Lines, Spread, OFFSETS};
use crate::others::{Library, Others};
use crate::rounds::{time, time_second, Line};
use crate::samples::Ring;
use crate::whole::Whole;

/// Each job on those cues of a day that it can be asked of.
pub fn day(jobs: &Jobs, cues: &[Cue], says: &str) {
    title(&format!("A day: {} lines, {says}", cues.len()));
    let columns = [
        "cues",
        "proved",
        "C",
        "second",
        "proved/C",
        "least",
        "proved/second",
    ];
    head("question", &columns);
    for job in jobs.all() {
        let cues = job.of(cues);
        let (line, second) = (time(job, &cues), time_second(job, &cues));
        println!(
            "| {} | {} | {} | {} | {} | {} | {} | {:.3} |",
            job.name,
            cues.len(),
            ns(line.proved),
            ns(line.c),
            ns(second),
            two(line.ratio),
            two(line.least),
            line.proved / second
        );
    }
}

/// Some jobs on each ring: the proved library's time, the ratio to C's, and the least ratio.
pub fn rings(name: &str, rings: &[Ring], jobs: &[&Job]) {
    title(name);
    let columns: Vec<_> = jobs
        .iter()
        .flat_map(|job| [job.name, "proved/C (least)"])
        .collect();
    head("section, bytes", &columns);
    for ring in rings {
        let cells = jobs.iter().map(|job| cell(&time(job, &ring.cues)));
        let cells: Vec<_> = cells.collect();
        println!("| {}, {} | {} |", ring.name, ring.bytes, cells.join(" | "));
    }
}

/// Whole programs on a file of lines.
pub fn whole(whole: &Whole) {
    let megabytes = whole.bytes as f64 / 1e6;
    title(&format!(
        "Lines end to end: a file of {} lines, {megabytes:.0} MB, at {OFFSETS} stack offsets",
        whole.lines
    ));
    let others = ["million lines a second", "from start to end"];
    head("program", &[&SPREAD[..], &others].concat());
    let c = &whole.yardstick.processor;
    for (name, timed) in [
        ("tally", &whole.tally),
        ("C", &whole.yardstick),
        ("second", &whole.second),
    ] {
        let (times, elapsed) = (spread(&timed.processor, c), ns(timed.elapsed));
        let million = two(1e3 / timed.processor.least);
        println!("| {name} | {times} | {million} | {elapsed} |");
    }
}

/// Lines in this process.
pub fn offsets(questions: &[Lines]) {
    title(&format!("Lines at {OFFSETS} stack offsets"));
    head("question", &SPREAD);
    for Lines { name, proved, c } in questions {
        println!("| {name}, proved | {} |", spread(proved, c));
        println!("| {name}, C | {} |", spread(c, c));
    }
}

/// What is said of times of a line at several offsets.
const SPREAD: [&str; 5] = ["least", "median", "worst", "to C, median", "to C, least"];

fn spread(times: &Spread, c: &Spread) -> String {
    [
        ns(times.least),
        ns(times.median),
        ns(times.worst),
        two(times.median / c.median),
        two(times.least / c.least),
    ]
    .join(" | ")
}

/// Other libraries beside the two sides, or a line of words where there is none.
pub fn others(others: &Others) {
    title("Other libraries: accept and break, on the sections of the day");
    let missing = |(name, library): &(&str, Library)| match library {
        Library::Missing(word) => Some(format!("{name} is {word}")),
        Library::Timed { .. } => None,
    };
    let words = others.libraries.iter().map(missing);
    if let Some(words) = words.collect::<Option<Vec<_>>>() {
        println!("No times: {}.", words.join(", "));
        return;
    }
    head("program", &["time", "to C", "same answers"]);
    let (ours, all) = (&others.ours, others.sections);
    for (name, time) in [("proved", ours.proved), ("C", ours.c)] {
        println!("| {name} | {} | {} | {all} |", ns(time), two(time / ours.c));
    }
    for (name, library) in &others.libraries {
        match library {
            Library::Missing(word) => println!("| {name} | {word} | | |"),
            Library::Timed { median, same } => {
                let ratio = two(median / ours.c);
                println!("| {name} | {} | {ratio} | {same} |", ns(*median));
            }
        }
    }
}

/// The stack of each call.
pub fn stack(calls: &[(&str, usize, Option<usize>)]) {
    title("Stack, in bytes");
    head("question", &["proved", "C"]);
    for (name, proved, c) in calls {
        let c = c.map_or(String::new(), |c| c.to_string());
        println!("| {name} | {proved} | {c} |");
    }
}

/// The stack of the tally.
pub fn pages(pages: usize) {
    println!(
        "\nThe tally answers that file within a stack of {} KiB, and not within {}.",
        4 * pages,
        4 * (pages - 1)
    );
}

fn title(name: &str) {
    println!("\n### {name}\n");
}

fn head(first: &str, others: &[&str]) {
    println!("| {first} | {} |", others.join(" | "));
    println!("|---|{}", "---:|".repeat(others.len()));
}

fn cell(line: &Line) -> String {
    format!(
        "{} | {} ({})",
        ns(line.proved),
        two(line.ratio),
        two(line.least)
    )
}

fn ns(time: f64) -> String {
    if time < 100.0 {
        format!("{time:.1}")
    } else {
        format!("{time:.0}")
    }
}

fn two(ratio: f64) -> String {
    format!("{ratio:.2}")
}
