//! Damaged sections: the row that refuses them is the answer, whatever the room, and nothing is
//! written. Some are still accepted, and those go there and back.

use super::there;
use crate::cases::damaged;
use crate::support::Bench;

/// How often each row, acceptance and ROOM are reached at least.
const OFTEN: u64 = 300;

/// A run covers some 90,000 damaged sections; each row is reached often.
#[test]
fn every_row() {
    let mut bench = Bench::new();
    damaged::every_kind(&mut bench, there);
    bench.to_sheet.reached(0..=11, OFTEN);
}
