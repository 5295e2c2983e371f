//! A section read by the tables, as `crates/grammar/specs/Meaning.antt` says.

use crate::grammar::{Row, Table, Test};

/// A row that was read, and the number in it.
pub type Read<'a> = (&'a Row, u64);

pub struct Reader<'a> {
    section: &'a [u8],
    /// The named values that the next test can see, the last one at the end.
    seen: Vec<(&'a str, u64)>,
    pub read: Vec<Read<'a>>,
}

impl<'a> Reader<'a> {
    /// Reads all up to CRC_32; none where a rule is broken.
    pub fn all(section: &'a [u8], table: &'a Table) -> Option<Vec<Read<'a>>> {
        let (seen, read) = (Vec::new(), Vec::new());
        let mut reader = Reader {
            section,
            seen,
            read,
        };
        let end = 8 * (section.len() - 4);
        (reader.on(table, 0, end)? == end).then_some(reader.read)
    }

    fn value(&self, name: &str) -> u64 {
        let found = self.seen.iter().rev().find(|(seen, _)| *seen == name);
        found.map_or(0, |(_, value)| *value)
    }

    fn number(&self, at: usize, bits: usize) -> u64 {
        (at..at + bits).fold(0, |number, place| {
            let bit = self.section[place / 8] >> (7 - place % 8) & 1;
            number << 1 | u64::from(bit)
        })
    }

    fn holds(&self, test: &Test, at: usize, end: usize) -> bool {
        match test {
            Test::Is(name, value) => self.value(name) == *value,
            Test::Among(name, values) => values.contains(&self.value(name)),
            Test::More => at < end,
        }
    }

    /// Where the table ends that starts at this bit. What a part has read is not seen behind it.
    fn on(&mut self, table: &'a Table, at: usize, end: usize) -> Option<usize> {
        let before = self.seen.len();
        let reached = self.through(table, at, end);
        self.seen.truncate(before);
        reached
    }

    fn through(&mut self, table: &'a Table, at: usize, end: usize) -> Option<usize> {
        match table {
            Table::Done => Some(at),
            Table::Stop => None,
            Table::Fields(rows, on) => {
                let at = self.rows(rows, at, end)?;
                self.on(on, at, end)
            }
            Table::Branch(test, [yes, no, on]) => {
                let part = if self.holds(test, at, end) { yes } else { no };
                let at = self.on(part, at, end)?;
                self.on(on, at, end)
            }
            Table::Then([one, on]) => {
                let at = self.on(one, at, end)?;
                self.on(on, at, end)
            }
            Table::Repeat(name, [one, on]) => {
                let count = self.value(name);
                let at = (0..count).try_fold(at, |at, _| self.on(one, at, end))?;
                self.on(on, at, end)
            }
            Table::Frame(name, [one, on]) => {
                let inner = at + 8 * self.value(name) as usize;
                let whole = inner <= end && self.on(one, at, inner)? == inner;
                whole.then(|| self.on(on, inner, end))?
            }
            Table::Fill([one, on]) => {
                let at = self.filled(one, at, end)?;
                self.on(on, at, end)
            }
            Table::Named(_, table) => self.on(table, at, end),
        }
    }

    fn filled(&mut self, one: &'a Table, mut at: usize, end: usize) -> Option<usize> {
        while at < end {
            let next = self.on(one, at, end)?;
            if next <= at {
                return None;
            }
            at = next;
        }
        Some(at)
    }

    fn rows(&mut self, rows: &'a [Row], mut at: usize, end: usize) -> Option<usize> {
        for row in rows {
            if at + row.bits > end {
                return None;
            }
            let number = self.number(at, row.bits);
            self.read.push((row, number));
            self.seen.push((&row.name, number));
            at += row.bits;
        }
        Some(at)
    }
}
