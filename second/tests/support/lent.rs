//! Memory to lend: a random pattern with some cells kept before and after the lent part,
//! so that everything written shows, also what is written outside.

use super::Random;
use second::hex::to_hex;

/// How many cells are kept on each side.
const MARGIN: usize = 16;

/// What lent memory is made of: bytes, or the numbers of a sheet.
pub trait Cell: Copy + PartialEq {
    fn random(random: &mut Random, count: usize) -> Vec<Self>;
    fn shown(cells: &[Self]) -> String;
}

impl Cell for u8 {
    fn random(random: &mut Random, count: usize) -> Vec<u8> {
        random.bytes(count)
    }

    fn shown(cells: &[u8]) -> String {
        to_hex(cells)
    }
}

impl Cell for u64 {
    fn random(random: &mut Random, count: usize) -> Vec<u64> {
        (0..count).map(|_| random.number()).collect()
    }

    fn shown(cells: &[u64]) -> String {
        let numbers: Vec<String> = cells.iter().map(u64::to_string).collect();
        numbers.join(" ")
    }
}

#[derive(Clone, PartialEq)]
pub struct Lent<T> {
    whole: Vec<T>,
}

impl<T: Cell> Lent<T> {
    /// A lent part of `count` random cells.
    pub fn random(random: &mut Random, count: usize) -> Lent<T> {
        let whole = T::random(random, MARGIN + count + MARGIN);
        Lent { whole }
    }

    /// A lent part with these cells in it.
    pub fn holding(random: &mut Random, cells: &[T]) -> Lent<T> {
        let [before, after] = [(); 2].map(|()| T::random(random, MARGIN));
        let whole = [&before, cells, &after].concat();
        Lent { whole }
    }

    /// The part that is lent.
    pub fn part(&mut self) -> &mut [T] {
        let end = self.whole.len() - MARGIN;
        &mut self.whole[MARGIN..end]
    }

    /// What a report says of this memory beside another of the same size.
    pub fn shown_beside(&self, other: &Lent<T>) -> String {
        let differs = (0..self.whole.len()).find(|place| self.whole[*place] != other.whole[*place]);
        let Some(place) = differs else {
            return "nothing differs".to_string();
        };
        let end = self.whole.len() - MARGIN;
        format!(
            "{} at place {} of the lent part; all of it: {} [ {} ] {}",
            T::shown(&self.whole[place..place + 1]),
            place as i64 - MARGIN as i64,
            T::shown(&self.whole[..MARGIN]),
            T::shown(&self.whole[MARGIN..end]),
            T::shown(&self.whole[end..]),
        )
    }
}
