//! How often each thing was met that has a name.

use std::collections::BTreeMap;

#[derive(Default)]
pub struct Counts {
    counts: BTreeMap<String, u64>,
}

impl Counts {
    pub fn count(&mut self, name: impl Into<String>) {
        *self.counts.entry(name.into()).or_default() += 1;
    }

    /// Prints the counts, and ends the test where one of these was met less often than that, or
    /// where another was met.
    pub fn reached(&self, expected: &[String], least: u64) {
        for name in expected {
            println!("{:8} {name}", self.of(name));
        }
        let other = self.counts.keys().find(|name| !expected.contains(name));
        assert_eq!(other, None, "this cannot be");
        let rare = expected.iter().find(|name| self.of(name) < least);
        assert_eq!(rare, None, "this was reached less than {least} times");
    }

    fn of(&self, name: &str) -> u64 {
        *self.counts.get(name).unwrap_or(&0)
    }
}
