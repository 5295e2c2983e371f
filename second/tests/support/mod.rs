//! What the comparison tests share: the random numbers, the lent memory, the reports, the
//! built sections, their fields, the typed questions and the bench.

mod bench;
pub mod built;
pub mod changes;
pub mod counts;
mod damage;
mod fields;
pub mod files;
pub mod house;
mod lent;
pub mod lines;
mod met;
pub mod programs;
pub mod questions;
pub mod random;
mod readings;
mod report;
mod rooms;
pub mod round;
mod same_lines;
mod sheets;
pub mod stream;
mod tally;
pub mod texts;

pub use bench::Bench;
pub use damage::damage;
pub use fields::{fields, widths};
pub use random::Random;
