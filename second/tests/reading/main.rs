//! Typed readings of random sections: the second program alone, so no archive is needed.
//! Every answer is what the section's sheet tells, and says no more and no less than it should.

mod bits;
mod page;
mod sections;
mod sheet;
mod upids;

#[allow(dead_code, unused_imports)]
#[path = "../support/built/mod.rs"]
mod built;
#[allow(dead_code)]
#[path = "../support/random.rs"]
mod random;
#[path = "../support/told.rs"]
mod told;

use random::{seed, Random};
use second::reading::{numbers, Reading};

/// The flat list of an answer, or the number of the refusal.
type Answer = Result<Vec<u64>, u8>;

fn random() -> Random {
    println!("seed {:#018x}", seed());
    Random::new(seed())
}

fn flat(answer: Result<impl Reading, u8>) -> Answer {
    answer.map(|answer| numbers(&answer))
}
