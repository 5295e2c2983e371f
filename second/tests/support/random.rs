//! A small generator of random numbers (splitmix64) and the seed of this run.

use std::cell::Cell;
use std::ops::RangeInclusive;
use std::sync::OnceLock;
use std::time::{SystemTime, UNIX_EPOCH};

pub struct Random {
    state: u64,
}

impl Random {
    pub fn new(seed: u64) -> Random {
        Random { state: seed }
    }

    pub fn number(&mut self) -> u64 {
        self.state = self.state.wrapping_add(0x9E37_79B9_7F4A_7C15);
        let mut mixed = self.state;
        mixed = (mixed ^ (mixed >> 30)).wrapping_mul(0xBF58_476D_1CE4_E5B9);
        mixed = (mixed ^ (mixed >> 27)).wrapping_mul(0x94D0_49BB_1331_11EB);
        mixed ^ (mixed >> 31)
    }

    /// A number in a short range.
    pub fn within(&mut self, range: RangeInclusive<usize>) -> usize {
        let count = range.end() - range.start() + 1;
        range.start() + (self.number() % count as u64) as usize
    }

    /// A number of any size in bits, small ones as likely as large ones.
    pub fn number_of_any_size(&mut self) -> u64 {
        let dropped = self.within(0..=63);
        self.number() >> dropped
    }

    /// True once in so many times.
    pub fn once_in(&mut self, times: usize) -> bool {
        self.within(1..=times) == 1
    }

    /// A number for a field of this width: all zeros and all ones come more often than others.
    pub fn field(&mut self, width: usize) -> u64 {
        let ones = u64::MAX >> (64 - width);
        match self.within(0..=9) {
            0 => 0,
            1 => ones,
            _ => self.number() & ones,
        }
    }

    /// One of the things listed.
    pub fn one_of<T: Copy>(&mut self, list: &[T]) -> T {
        list[self.within(0..=list.len() - 1)]
    }

    pub fn bytes(&mut self, count: usize) -> Vec<u8> {
        let mut bytes = Vec::with_capacity(count + 8);
        while bytes.len() < count {
            bytes.extend(self.number().to_le_bytes());
        }
        bytes.truncate(count);
        bytes
    }
}

thread_local! {
    /// The seed of the round that this thread is in, where a run is made of rounds.
    static ROUND: Cell<Option<u64>> = const { Cell::new(None) };
}

/// From here on, this is the seed in this thread.
pub fn start_round(seed: u64) {
    ROUND.set(Some(seed));
}

/// The seed of the round or else of this run: TIMPANIMIST_SEED where it is set, otherwise from the
/// system clock.
pub fn seed() -> u64 {
    ROUND.get().unwrap_or_else(seed_of_run)
}

fn seed_of_run() -> u64 {
    static SEED: OnceLock<u64> = OnceLock::new();
    *SEED.get_or_init(|| match std::env::var("TIMPANIMIST_SEED") {
        Ok(given) => parsed(&given).unwrap_or_else(|| {
            panic!("TIMPANIMIST_SEED is neither a number nor 0x and hex digits: {given}")
        }),
        Err(_) => {
            let now = SystemTime::now().duration_since(UNIX_EPOCH);
            Random::new(now.map_or(0, |passed| passed.as_nanos() as u64)).number()
        }
    })
}

/// A number, or `0x` and hex digits.
pub fn parsed(given: &str) -> Option<u64> {
    match given.strip_prefix("0x") {
        Some(digits) => u64::from_str_radix(digits, 16).ok(),
        None => given.parse().ok(),
    }
}
