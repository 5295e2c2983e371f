//! The questions put to both programs, a file for each group.

mod accept;
mod crc;
mod damaged;
mod fields;
mod house;
mod lines;
mod pairs;
mod published;
mod reading;
mod section_edges;
mod sheet;
mod text_changes;
mod text_edges;
mod text_random;
mod units;
