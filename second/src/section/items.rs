//! The fields of a section as one list, in the order in which they stand, with name and width.

#[derive(Clone, Debug, PartialEq, Eq)]
pub enum Item {
    /// A structure with this name begins.
    Open(&'static str),
    /// A field: its name, its width in bits and the number in it.
    Number(&'static str, usize, u64),
    /// A string of bytes.
    Bytes(&'static str, Vec<u8>),
    /// The structure that began last ends.
    Close,
}

/// The list while it is made.
#[derive(Default)]
pub struct Items {
    pub list: Vec<Item>,
}

impl Items {
    pub fn number(&mut self, name: &'static str, width: usize, value: impl Into<u64>) {
        self.list.push(Item::Number(name, width, value.into()));
    }

    pub fn bytes(&mut self, name: &'static str, bytes: &[u8]) {
        self.list.push(Item::Bytes(name, bytes.to_vec()));
    }

    /// The count that stands before a list of things.
    pub fn count<T>(&mut self, name: &'static str, width: usize, things: &[T]) {
        self.number(name, width, things.len() as u64);
    }

    pub fn group(&mut self, name: &'static str, inside: impl FnOnce(&mut Items)) {
        self.list.push(Item::Open(name));
        inside(self);
        self.list.push(Item::Close);
    }
}
