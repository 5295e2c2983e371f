//! The tables of docs/SHEET.md, under "The fields".

use crate::grammar::Row;

const PAGE: &str = include_str!("../../../docs/SHEET.md");

/// The heading under which the types of commands stand, and not the fields of a structure.
const COMMANDS: &str = "The commands";

/// A line of a table.
#[derive(Debug, PartialEq, Eq)]
pub enum Line {
    Field(Row),
    /// A structure that has a table of its own.
    Part(String),
}

/// The cells of a row.
type Cells = [&'static str; 3];

/// Each heading, and the rows of all tables below it.
fn told() -> Vec<(&'static str, Vec<Cells>)> {
    let (_, fields) = PAGE.split_once("\n## The fields\n").expect("the part");
    let (fields, _) = fields.split_once("\n## ").expect("the end of it");
    let parts = fields.split("\n### ").skip(1);
    let parts = parts.map(|part| part.split_once('\n').expect("a heading"));
    parts.map(|(heading, text)| (heading, rows(text))).collect()
}

/// The rows of tables: the first of each names its columns, the second is a rule.
fn rows(text: &'static str) -> Vec<Cells> {
    let tables = text.split("\n\n").filter(|table| table.contains("\n|"));
    let rows = tables.flat_map(|table| {
        let mut lines = table.trim_start().lines().map(cells);
        lines.next().expect("the columns");
        assert_eq!(lines.next(), Some(["---"; 3]));
        lines
    });
    rows.collect()
}

fn cells(line: &'static str) -> Cells {
    let inside = within(line, "|", "|").unwrap_or_else(|| panic!("no row: {line}"));
    let cells: Vec<_> = inside.split('|').map(str::trim).collect();
    cells.try_into().expect("three cells")
}

/// The structures in the order of the page, each with its lines.
pub fn structures() -> Vec<(&'static str, Vec<Line>)> {
    let told = told().into_iter();
    told.filter(|(heading, _)| *heading != COMMANDS)
        .map(|(heading, rows)| (structure(heading), rows.into_iter().map(line).collect()))
        .collect()
}

fn structure(heading: &'static str) -> &'static str {
    let found = heading.split('`').find(|word| word.ends_with("()"));
    found.unwrap_or_else(|| panic!("no structure: {heading}"))
}

/// `name`, or `name`, each byte; (`name`) for a field that is not on the sheet; *`name`* for a structure.
fn line([field, bits, when]: Cells) -> Line {
    if let Some(part) = within(field, "*", "*") {
        assert_eq!(bits, "", "the bits of {part}");
        return Line::Part(part.replace('`', ""));
    }
    let (name, bits) = match within(field, "(`", "`)") {
        Some(name) => {
            assert_eq!(bits, "", "the bits of {name}");
            let told = within(when, "", " bits in the section, not on the sheet");
            (name, told.expect("how many bits"))
        }
        None => {
            let (field, each) = field.split_once(", each").unwrap_or((field, ""));
            assert!(matches!(each, "" | " byte"), "{field}, each{each}");
            (within(field, "`", "`").expect("a name"), bits)
        }
    };
    let (name, bits) = (name.to_string(), bits.parse().expect("a width"));
    Line::Field(Row { name, bits })
}

/// The types of commands that the standard has, and the structure whose numbers each has, if any.
pub fn types() -> Vec<(u64, Option<&'static str>)> {
    let told = told().into_iter().find(|(heading, _)| *heading == COMMANDS);
    let mut rows = told.expect("the types").1;
    let others = rows.pop().expect("a last row");
    assert_eq!(others, ["any other", "unknown", "below"]);
    let of = |[value, command, numbers]: Cells| {
        let value = value.strip_prefix("0x").expect("a number in hex");
        let structure = match numbers {
            "none" => None,
            "below" => Some(within(command, "`", "`").expect("a name")),
            numbers => Some(within(numbers, "those of one `", "`").expect("a name")),
        };
        (u64::from_str_radix(value, 16).expect("a type"), structure)
    };
    rows.into_iter().map(of).collect()
}

/// The tags of the known descriptors.
pub fn tags() -> Vec<(u64, Option<&'static str>)> {
    let told = told().into_iter();
    let tags = told.filter_map(|(heading, _)| {
        let (tag, _) = heading.strip_prefix("Tag ")?.split_once(": ")?;
        Some((tag.parse().expect("a tag"), Some(structure(heading))))
    });
    tags.collect()
}

/// What stands between the two.
fn within<'a>(text: &'a str, before: &str, after: &str) -> Option<&'a str> {
    text.strip_prefix(before)?.strip_suffix(after)
}
