//! The independent second program: what the papers say, written plainly and by its own route.
//! It never links the proved library; the two meet only in tests.
#![forbid(unsafe_code)]

pub mod bits;
pub mod crc;
pub mod day;
pub mod hex;
pub mod house;
pub mod lines;
pub mod made;
pub mod reading;
pub mod refusal;
pub mod samples;
pub mod section;
pub mod sheet;
pub mod text;
pub mod units;
