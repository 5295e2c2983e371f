//! Every constant of the header, of this crate and of docs/READINGS.md is that of the definitions in `specs/`: the
//! numbers of cases and of refusals, how long an answer can be, and the other limits.

mod cases;
mod declared;
mod definitions;
mod limits;
mod named;
mod refusals;
#[path = "../source/mod.rs"]
mod source;

use std::collections::BTreeMap;

const HEADER: &str = "include/timpanimist.h";
const READINGS: &str = "docs/READINGS.md";

/// Puts a name and its number into a list; the same name has the same number wherever it stands.
fn put(list: &mut BTreeMap<String, String>, name: String, number: u64) {
    let number = number.to_string();
    let before = list.insert(name.clone(), number.clone());
    assert!(before.is_none_or(|before| before == number), "{name}");
}
