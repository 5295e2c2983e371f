//! An answer as a list, in one order for both uses: its numbers, and its lines for people.

use crate::hex::to_hex;

#[derive(Clone, Debug, PartialEq, Eq)]
pub enum Entry {
    /// What is told apart, the name of the case, and the number of the case.
    Case(&'static str, &'static str, u64),
    /// A field and the number in it.
    Value(&'static str, u64),
    /// A string of bytes.
    Bytes(&'static str, Vec<u8>),
}

/// The list while it is made.
#[derive(Default)]
pub struct Entries {
    pub list: Vec<Entry>,
}

/// An answer to one of the questions.
pub trait Reading {
    fn list(&self, to: &mut Entries);
}

/// The flat list of an answer: a case by its number, a field by its value, a byte string one number
/// a byte.
pub fn numbers(answer: &impl Reading) -> Vec<u64> {
    let mut numbers = Vec::new();
    for entry in entries(answer) {
        match entry {
            Entry::Case(_, _, number) => numbers.push(number),
            Entry::Value(_, value) => numbers.push(value),
            Entry::Bytes(_, bytes) => numbers.extend(bytes.into_iter().map(u64::from)),
        }
    }
    numbers
}

/// The same list for people: a line for every number, or for a string of bytes, each ended by a
/// newline.
pub fn listing(answer: &impl Reading) -> String {
    let lines = entries(answer).into_iter().map(|entry| line(&entry) + "\n");
    lines.collect()
}

/// The list itself.
pub fn entries(answer: &impl Reading) -> Vec<Entry> {
    let mut entries = Entries::default();
    answer.list(&mut entries);
    entries.list
}

fn line(entry: &Entry) -> String {
    match entry {
        Entry::Case(what, name, number) => format!("{what}: {number} ({name})"),
        Entry::Value(name, value) if *value < 10 => format!("{name}: {value}"),
        Entry::Value(name, value) => format!("{name}: {value} ({value:#x})"),
        Entry::Bytes(name, bytes) if bytes.is_empty() => format!("{name}: no bytes"),
        Entry::Bytes(name, bytes) => format!("{name}: {}", to_hex(bytes)),
    }
}

impl Entries {
    pub fn case(&mut self, what: &'static str, name: &'static str, number: u64) {
        self.list.push(Entry::Case(what, name, number));
    }

    pub fn value(&mut self, name: &'static str, value: impl Into<u64>) {
        self.list.push(Entry::Value(name, value.into()));
    }

    pub fn bytes(&mut self, name: &'static str, bytes: &[u8]) {
        self.list.push(Entry::Bytes(name, bytes.to_vec()));
    }

    /// Whether it is there, and then what `list` says of it.
    pub fn optional<T>(
        &mut self,
        what: &'static str,
        value: &Option<T>,
        list: impl FnOnce(&mut Entries, &T),
    ) {
        match value {
            None => self.case(what, "absent", 0),
            Some(value) => {
                self.case(what, "present", 1);
                list(self, value);
            }
        }
    }
}

/// A byte of a list that is read by number.
impl Reading for u8 {
    fn list(&self, to: &mut Entries) {
        to.value("byte", *self);
    }
}

/// A count.
impl Reading for u64 {
    fn list(&self, to: &mut Entries) {
        to.value("count", *self);
    }
}
