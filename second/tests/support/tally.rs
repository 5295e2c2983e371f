//! How often each answer was given: 0 for accepted, otherwise the number of the refusal.

use second::refusal;
use std::ops::RangeInclusive;

#[derive(Default)]
pub struct Tally {
    counts: [u64; 18],
}

impl Tally {
    pub fn count(&mut self, row: u8) {
        self.counts[usize::from(row)] += 1;
    }

    /// How often this answer was given.
    pub fn of(&self, row: u8) -> u64 {
        self.counts[usize::from(row)]
    }

    /// How often any was given.
    pub fn all(&self) -> u64 {
        self.counts.iter().sum()
    }

    /// Prints the counts of these answers, and ends the test where one was given less often than
    /// that.
    pub fn reached(&self, rows: RangeInclusive<u8>, least: u64) {
        for row in rows.clone() {
            let name = refusal::name(row).unwrap_or("accepted");
            println!("{row:2} {name:10} {:8}", self.of(row));
        }
        let rare = rows.clone().find(|row| self.of(*row) < least);
        assert_eq!(rare, None, "this row was reached less than {least} times");
    }
}
