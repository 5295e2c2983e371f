//! House answers of random sections: the second program alone, so no archive is needed.
//! Every answer is what the typed readings tell, and related sections have the same.

mod mixed;
mod pairs;
mod readings;

#[allow(dead_code, unused_imports)]
#[path = "../support/built/mod.rs"]
mod built;
#[allow(dead_code)]
#[path = "../support/counts.rs"]
mod counts;
#[allow(dead_code)]
#[path = "../support/fields.rs"]
mod fields;
#[allow(dead_code)]
#[path = "../support/random.rs"]
mod random;

use random::{seed, Random};

fn random() -> Random {
    println!("seed {:#018x}", seed());
    Random::new(seed())
}
