//! Whole files through both programs, and how the proved program reads, writes and ends.

mod arguments;
mod ends;
mod memory;
mod pipes;
mod whole;

#[allow(dead_code, unused_imports)]
#[path = "../support/built/mod.rs"]
mod built;
#[path = "../support/damage.rs"]
mod damage;
#[path = "../support/files.rs"]
mod files;
#[path = "../support/programs.rs"]
mod programs;
#[allow(dead_code)]
#[path = "../support/random.rs"]
mod random;
#[path = "../support/same_lines.rs"]
mod same_lines;
#[allow(dead_code)]
#[path = "../support/texts.rs"]
mod texts;

use random::{seed, Random};
use std::process::Output;

fn random() -> Random {
    println!("seed {:#018x}", seed());
    Random::new(seed())
}

/// It ended well and told nothing on standard error: what it wrote.
fn written(output: Output) -> Vec<u8> {
    let told = String::from_utf8_lossy(&output.stderr);
    assert_eq!(told, "", "this stands on standard error");
    assert!(output.status.success(), "{}", output.status);
    output.stdout
}
