//! The long comparison: rounds of random cues, each with a seed of its own, through the archive's line
//! functions and, now and then, through both programs; then the longest texts, read with each byte
//! changed to each other. `second/long` starts it.

#[allow(dead_code, unused_imports)]
mod proved;
#[allow(dead_code, unused_imports)]
mod support;

use second::text::LONGEST_TEXT;
use std::panic::catch_unwind;
use std::process::ExitCode;
use std::sync::atomic::{AtomicU64, Ordering};
use std::sync::Mutex;
use std::thread;
use std::time::Instant;
use support::changes::{longest_texts, most_bytes};
use support::random::{parsed, seed, start_round, Random};
use support::round::{round, Done};
use support::Bench;

/// How many cues are asked where it is not said. With fewer the longest texts are left out, since they
/// take minutes, and a round that is run alone does not need them.
const CUES: u64 = 1_000_000;

/// How many of them one round has; with so few, a run is one round.
const CUES_OF_A_ROUND: u64 = 500;

/// A round in so many goes through both programs too.
const ROUNDS_OF_A_FILE: u64 = 20;

/// After so many rounds a line tells how far it is.
const ROUNDS_OF_A_LINE: u64 = 400;

/// After so many places of the longest texts too.
const PLACES_OF_A_LINE: u64 = 4_000;

fn main() -> ExitCode {
    let words: Vec<String> = std::env::args().skip(1).collect();
    let Some((seed, cues)) = wanted(&words) else {
        eprintln!("usage: second/long [SEED] [CUES]");
        return ExitCode::from(2);
    };
    let run = Run::new(seed, cues);
    println!(
        "seed {seed:#018x}: {} rounds of {CUES_OF_A_ROUND} cues, {} places of the longest texts",
        run.rounds, run.places
    );
    let threads = thread::available_parallelism().map_or(1, |threads| threads.get());
    thread::scope(|scope| {
        for _ in 0..threads {
            scope.spawn(|| run.work());
        }
    });
    run.report()
}

/// The seed and the count of cues.
fn wanted(words: &[String]) -> Option<(u64, u64)> {
    match words {
        [] => Some((seed(), CUES)),
        [seed] => Some((parsed(seed)?, CUES)),
        [seed, cues] => Some((parsed(seed)?, parsed(cues)?)),
        _ => None,
    }
}

struct Run {
    seed: u64,
    rounds: u64,
    /// In how many places a byte is changed: in all of the longest texts, or in none.
    places: u64,
    longest: [Vec<u8>; 3],
    next: AtomicU64,
    sums: Mutex<Sums>,
    start: Instant,
}

#[derive(Default)]
struct Sums {
    rounds: u64,
    done: Done,
    places: u64,
    changes: u64,
    /// What to do to see again what a round or a place found.
    differences: Vec<String>,
}

impl Run {
    fn new(seed: u64, cues: u64) -> Run {
        let longest = longest_texts(&mut Random::new(seed));
        let places = longest.len() * LONGEST_TEXT;
        Run {
            seed,
            rounds: cues.div_ceil(CUES_OF_A_ROUND),
            places: if cues < CUES { 0 } else { places as u64 },
            longest,
            next: AtomicU64::new(0),
            sums: Mutex::default(),
            start: Instant::now(),
        }
    }

    /// Takes round after round until there is none left, and then place after place.
    fn work(&self) {
        loop {
            let number = self.next.fetch_add(1, Ordering::Relaxed);
            if number < self.rounds {
                self.round(number);
            } else if number < self.rounds + self.places {
                self.place(number);
            } else {
                return;
            }
        }
    }

    /// A round ends with its first difference.
    fn round(&self, number: u64) {
        let seed = seed_of_round(self.seed, number);
        let file = number.is_multiple_of(ROUNDS_OF_A_FILE);
        let result = catch_unwind(|| round(seed, CUES_OF_A_ROUND, file));
        let mut sums = self.sums.lock().expect("no thread ended badly");
        sums.rounds += 1;
        match result {
            Ok(done) => sums.done.add(&done),
            Err(_) => sums.differences.push(format!(
                "again with: second/long {seed:#018x} {CUES_OF_A_ROUND}"
            )),
        }
        if sums.rounds.is_multiple_of(ROUNDS_OF_A_LINE) {
            self.tell(&sums);
        }
    }

    /// Each change of one byte of one of the longest texts, until the first difference.
    fn place(&self, number: u64) {
        let place = (number - self.rounds) as usize;
        let (padding, place) = (place / LONGEST_TEXT, place % LONGEST_TEXT);
        let text = &self.longest[padding];
        let result = catch_unwind(|| {
            start_round(seed_of_round(self.seed, number));
            let mut bench = Bench::silent();
            bench.changed_at(text, place, 0..=255, most_bytes(text));
            bench.read.all()
        });
        let mut sums = self.sums.lock().expect("no thread ended badly");
        sums.places += 1;
        match result {
            Ok(changes) => sums.changes += changes,
            Err(_) => sums.differences.push(format!(
                "place {place} of the longest text that ends in {padding} `=`, pasted above"
            )),
        }
        if sums.places.is_multiple_of(PLACES_OF_A_LINE) {
            self.tell(&sums);
        }
    }

    fn tell(&self, sums: &Sums) {
        let (rounds, places, differences) = (sums.rounds, sums.places, sums.differences.len());
        let seconds = self.start.elapsed().as_secs();
        println!(
            "{rounds} rounds, {places} places, {seconds} s, differences so far: {differences}"
        );
    }

    /// Prints the sums; the last line says how many differences there were.
    fn report(self) -> ExitCode {
        let seconds = self.start.elapsed().as_secs();
        let sums = self.sums.into_inner().expect("no thread ended badly");
        println!("{}", sums.done.told());
        println!("{} changes of the longest texts", sums.changes);
        println!("{seconds} s, seed {:#018x}", self.seed);
        for difference in &sums.differences {
            println!("a difference, {difference}");
        }
        println!("differences found: {}", sums.differences.len());
        match sums.differences.is_empty() {
            true => ExitCode::SUCCESS,
            false => ExitCode::FAILURE,
        }
    }
}

/// The first round has the seed of the run, so that each can be run alone.
fn seed_of_round(seed: u64, number: u64) -> u64 {
    match number {
        0 => seed,
        _ => Random::new(seed ^ number.rotate_left(32)).number(),
    }
}
