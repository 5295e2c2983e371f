//! A section for people: a line for every field, by the standard's name, structures set in.

use super::{Item, Section};
use crate::hex::to_hex;

/// Lines of text, each ended by a newline.
pub fn listing(section: &Section) -> String {
    let mut text = String::new();
    let mut depth = 0;
    for item in section.items() {
        if item == Item::Close {
            depth -= 1;
            continue;
        }
        text += &"  ".repeat(depth);
        text += &line(&item);
        text += "\n";
        if let Item::Open(_) = item {
            depth += 1;
        }
    }
    text
}

fn line(item: &Item) -> String {
    match item {
        Item::Open(name) => name.to_string(),
        Item::Number(name, width, value) if *width < 8 => format!("{name}: {value}"),
        Item::Number(name, _, value) => format!("{name}: {value} ({value:#x})"),
        Item::Bytes(name, bytes) if bytes.is_empty() => format!("{name}: no bytes"),
        Item::Bytes(name, bytes) => format!("{name}: {}", to_hex(bytes)),
        Item::Close => String::new(),
    }
}
