//! Names and numbers out of the header, of the wrapper and of the pages.

use std::collections::BTreeMap;

/// Names and numbers: on each line that has it, what stands between `before` and `between` and the number
/// behind that.
pub fn numbered(text: &str, before: &str, between: &str) -> BTreeMap<String, String> {
    let lines = text
        .lines()
        .filter_map(|line| line.split_once(before)?.1.split_once(between));
    let number = |text: &str| text.trim_matches([' ', ',', ';']).to_string();
    let pairs = lines.map(|(name, rest)| (name.trim().to_string(), number(rest)));
    pairs
        .filter(|(_, number)| number.parse::<u64>().is_ok())
        .collect()
}

/// The strings in the braces that start there.
pub fn strings<'a>(text: &'a str, start: &str) -> Vec<&'a str> {
    let list = text.split_once(start).expect("a list").1;
    let list = list.split_once("};").expect("an end of the list").0;
    list.split('"').skip(1).step_by(2).collect()
}

/// The constants of a header's enums, which have no names of their own, without what all constants start with.
pub fn enums(text: &str) -> BTreeMap<String, String> {
    assert_eq!(text.matches("enum").count(), text.matches("enum {").count());
    let blocks = text.split("enum {").skip(1);
    let blocks = blocks.map(|block| block.split_once('}').expect("an end of the enum").0);
    let constants = blocks.flat_map(|block| block.split(','));
    constants
        .map(|constant| named(constant.trim(), " = "))
        .collect()
}

/// The numbers that a header defines, named in the same way.
pub fn defines(text: &str) -> BTreeMap<String, String> {
    let lines = text
        .lines()
        .filter_map(|line| line.strip_prefix("#define "));
    let numbers = lines.filter(|line| *line != "TIMPANIMIST_H");
    numbers.map(|line| named(line.trim(), " ")).collect()
}

/// A name and a number; anything else is a failure.
fn named(text: &str, between: &str) -> (String, String) {
    let found = text
        .strip_prefix("TIMPANIMIST_")
        .and_then(|text| text.split_once(between));
    let (name, number) = found.unwrap_or_else(|| panic!("no name and number: {text}"));
    assert!(number.parse::<u64>().is_ok(), "no number: {text}");
    (name.to_string(), number.to_string())
}

/// The cases that the wrapper reads: what the answer is called, the number, and what is made of it.
pub fn cases(text: &str) -> Vec<(String, u64, String)> {
    let mut found = Vec::new();
    let asked = text.matches("numbers.case()").count();
    assert_eq!(asked, text.matches("match numbers.case() {").count());
    for block in text.split("match numbers.case() {").skip(1) {
        let (arms, answer) = block.split_once("case => no_case(\"").expect("a last arm");
        let (answer, _) = answer.split_once('"').expect("an end of the name");
        for arm in arms.lines().filter(|line| line.contains("=>")) {
            let (number, made) = arm.split_once(" => ").expect("an arm");
            let made = made.split([' ', '(', ',']).next().unwrap_or("");
            let number = number.trim().parse().expect("a number");
            found.push((answer.to_string(), number, made.to_string()));
        }
    }
    found
}

/// The rows of a page's tables whose columns, but for the first, have these names.
pub fn rows<const N: usize>(text: &str, columns: &str) -> Vec<[String; N]> {
    let tables = text.split("\n\n").filter(|table| table.starts_with('|'));
    let lines = tables.flat_map(|table| {
        let (head, rows) = table.split_once('\n').expect("a table");
        let named = head.ends_with(&format!("| {columns} |"));
        // the first of the rest is a rule
        rows.lines().skip(1).filter(move |_| named)
    });
    lines.map(cells).collect()
}

fn cells<const N: usize>(line: &str) -> [String; N] {
    let inside = line
        .strip_prefix('|')
        .and_then(|line| line.strip_suffix('|'));
    let cells = inside.unwrap_or_else(|| panic!("no row: {line}"));
    let cells: Vec<_> = cells
        .split('|')
        .map(|cell| cell.trim().to_string())
        .collect();
    cells
        .try_into()
        .unwrap_or_else(|_| panic!("not {N} cells: {line}"))
}
