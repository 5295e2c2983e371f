//! The fields whose numbers stand on a sheet: their names and how wide they are.

use second::section::{accept, Item};

/// The name and the width in bits of every number on the sheet of an accepted section, in order.
pub fn fields(section: &[u8]) -> Vec<(&'static str, usize)> {
    let mut fields = Vec::new();
    for item in accept(section).expect("an accepted section").items() {
        match item {
            Item::Number("section_length" | "CRC_32", _, _) => {}
            Item::Number(name, width, _) => fields.push((name, width)),
            Item::Bytes(name, bytes) => fields.extend(bytes.iter().map(|_| (name, 8))),
            Item::Open(_) | Item::Close => {}
        }
    }
    fields
}

/// The widths alone.
pub fn widths(section: &[u8]) -> Vec<usize> {
    let fields = fields(section).into_iter();
    fields.map(|(_, width)| width).collect()
}
