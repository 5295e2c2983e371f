//! A typed answer out of the list of numbers that the archive writes (docs/READINGS.md), and lists that
//! are asked by number.

use crate::refusal::counted;
use crate::{EventId, Refusal, Ticks};

/// Asks in room for `MOST` numbers, and reads those that were written.
pub fn asked<const MOST: usize, T: Read>(
    ask: impl FnOnce(&mut [u64]) -> u64,
) -> Result<T, Refusal> {
    asked_by::<MOST, T>(ask, |numbers| numbers.read())
}

/// The same for an answer that is not read from its numbers alone.
pub fn asked_by<const MOST: usize, T>(
    ask: impl FnOnce(&mut [u64]) -> u64,
    read: impl FnOnce(&mut Numbers) -> T,
) -> Result<T, Refusal> {
    let mut out = [0; MOST];
    let count = counted(ask(&mut out))?;
    let mut numbers = Numbers(&out[..count]);
    let answer = read(&mut numbers);
    assert!(
        numbers.0.is_empty(),
        "the archive's answer is longer than its table"
    );
    Ok(answer)
}

/// The numbers of an answer that are not read yet.
pub struct Numbers<'a>(&'a [u64]);

/// What stands in an answer as one number or more.
pub trait Read {
    fn read(numbers: &mut Numbers) -> Self;
}

impl Numbers<'_> {
    /// What stands next.
    pub fn read<T: Read>(&mut self) -> T {
        T::read(self)
    }

    /// The number that stands next, which says the case.
    pub fn case(&mut self) -> u64 {
        self.read()
    }

    /// The part of a list that the next two numbers name: its first place, and how many.
    pub fn part<'a>(&mut self, list: &'a [u8]) -> &'a [u8] {
        let (from, count): (usize, usize) = (self.read(), self.read());
        &list[from..from + count]
    }
}

impl Read for u64 {
    fn read(numbers: &mut Numbers) -> u64 {
        let first = numbers.0.split_first();
        let (&number, rest) = first.expect("the archive's answer is as long as its table");
        numbers.0 = rest;
        number
    }
}

/// Kinds that are narrower than the number in which they stand.
macro_rules! narrower {
    ($($kind:ty)*) => {
        $(impl Read for $kind {
            fn read(numbers: &mut Numbers) -> $kind {
                let number: u64 = numbers.read();
                <$kind>::try_from(number).expect("the archive's number fits its field")
            }
        })*
    };
}

narrower!(u8 u16 u32 usize);

impl Read for bool {
    fn read(numbers: &mut Numbers) -> bool {
        match numbers.case() {
            0 => false,
            1 => true,
            case => no_case("flag", case),
        }
    }
}

impl Read for Ticks {
    fn read(numbers: &mut Numbers) -> Ticks {
        Ticks(numbers.read())
    }
}

impl Read for EventId {
    fn read(numbers: &mut Numbers) -> EventId {
        EventId(numbers.read())
    }
}

/// A case number that the table does not have: then archive and wrapper are of different editions.
pub fn no_case(answer: &str, case: u64) -> ! {
    panic!("the archive's {answer} has the case {case}, which its table does not have")
}

/// The parts of a list in order, each asked by its number, until one is not there. A section that is
/// refused as a whole is refused here, before any part.
pub fn parts<T>(
    ask: impl Fn(usize) -> Result<T, Refusal>,
) -> Result<impl Iterator<Item = T>, Refusal> {
    let first = match ask(0) {
        Err(Refusal::NotHere) => None,
        answer => Some(answer?),
    };
    let others = (1..).map_while(move |n| ask(n).ok());
    Ok(first.into_iter().chain(others))
}
