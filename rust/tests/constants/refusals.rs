//! The refusals: their numbers, their names and words, and the bit that marks one.

use std::collections::BTreeMap;

use crate::declared::{enums, rows, strings};
use crate::definitions::{equations, value_of};
use crate::source::{files, read, text};
use crate::{HEADER, READINGS};
use timpanimist::Refusal;

/// The table's names and numbers, as `number_of` has them.
fn refusals_defined() -> BTreeMap<String, String> {
    let equations = equations().into_iter();
    let rows = equations.filter(|[name, _, _]| name == "number_of");
    rows.map(|[_, refusal, number]| (refusal.to_uppercase(), number))
        .collect()
}

#[test]
fn refusals() {
    let defined = refusals_defined();
    assert_eq!(defined.len(), 17, "the refusals were not found");
    let ours =
        Refusal::ALL.map(|refusal| (refusal.name().to_string(), refusal.number().to_string()));
    assert_eq!(BTreeMap::from(ours), defined);
    let declared = enums(&read(HEADER));
    let declared = declared
        .into_iter()
        .filter_map(|(name, number)| Some((name.strip_prefix("REFUSAL_")?.to_string(), number)));
    assert_eq!(declared.collect::<BTreeMap<_, _>>(), defined);
    let answers = rows::<4>(
        &text("docs/ANSWERS.md"),
        "name | what is wrong | where to look",
    );
    let told = answers
        .into_iter()
        .map(|[number, name, _, _]| (name, number));
    assert_eq!(told.collect::<BTreeMap<_, _>>(), defined);
}

/// Where a page has a refusal's name behind a number, it is that refusal's number.
#[test]
fn refusals_of_the_pages() {
    let defined = refusals_defined();
    for page in files("docs", "md") {
        // in a sentence, or in the first two cells of a row
        let page_text = text(&page).replace(" | ", " ");
        let words = page_text.split(|c: char| !c.is_ascii_alphanumeric());
        let words: Vec<&str> = words.collect();
        for pair in words.windows(2) {
            if let (Ok(_), Some(number)) = (pair[0].parse::<u64>(), defined.get(pair[1])) {
                assert_eq!(pair[0], number, "{page}: {pair:?}");
            }
        }
    }
}

/// The header has the name and the words of each refusal, in the order of the table, behind those of none.
#[test]
fn names_and_words() {
    let header = read(HEADER);
    let names = strings(&header, "names[] = {");
    let words = strings(&header, "words[] = {");
    assert_eq!(names[1..], Refusal::ALL.map(Refusal::name));
    assert_eq!(words[1..], Refusal::ALL.map(Refusal::words));
}

/// A refusal is marked by the same bit everywhere.
#[test]
fn mark_of_a_refusal() {
    assert_eq!(value_of("wire (Err r)"), "2 ^ 63 + number_of r");
    assert!(read(HEADER).contains("return answer >> 63 ? (uint32_t)answer : 0;"));
    assert!(read("rust/src/refusal.rs").contains("const REFUSED: u64 = 1 << 63;"));
    assert!(text(READINGS).contains("or 2^63 plus the refusal's number"));
}
