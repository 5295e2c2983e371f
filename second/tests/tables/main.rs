//! The tables of the proved grammar, `crates/grammar/specs/Tables.antt`, those of docs/SHEET.md and the second
//! program have the same fields: by name, by width and in order.

mod grammar;
mod page;
mod reading;
mod source;

#[allow(dead_code, unused_imports)]
#[path = "../support/built/mod.rs"]
mod built;
#[allow(dead_code)]
#[path = "../support/random.rs"]
mod random;

use built::{any_section, Size};
use grammar::{table, Row, Table, Test};
use page::Line;
use random::{seed, Random};
use reading::Reader;
use second::section::{accept, Item};
use std::collections::BTreeSet;

/// The structures that have a table on the page, by the names that they have there and in the grammar.
const STRUCTURES: [(&str, &str); 12] = [
    ("splice_info_section()", "splice_info_section"),
    ("splice_schedule()", "splice_schedule"),
    ("splice_insert()", "splice_insert"),
    ("private_command()", "private_command"),
    ("splice_time()", "splice_time"),
    ("break_duration()", "break_duration"),
    ("splice_descriptor()", "splice_descriptor"),
    ("avail_descriptor()", "avail_descriptor"),
    ("DTMF_descriptor()", "dtmf_descriptor"),
    ("segmentation_descriptor()", "segmentation_descriptor"),
    ("time_descriptor()", "time_descriptor"),
    ("audio_descriptor()", "audio_descriptor"),
];

/// What one line of the page stands for where it is a part of another table.
fn on_the_page(name: &str) -> Option<&'static str> {
    match name {
        "sized_command" => Some("the command"),
        "splice_descriptor" => Some("the descriptors"),
        _ => {
            let known = STRUCTURES.iter().find(|(_, grammar)| *grammar == name);
            known.map(|(page, _)| *page)
        }
    }
}

/// The rows of a table in order; a table in it that the page has apart is one line.
fn lines(table: &Table) -> Vec<Line> {
    let mut lines = Vec::new();
    if let Table::Fields(rows, _) = table {
        lines.extend(rows.iter().cloned().map(Line::Field));
    }
    for part in table.parts() {
        match part {
            Table::Named(name, inside) => match on_the_page(name) {
                Some(part) => lines.push(Line::Part(part.to_string())),
                None => lines.extend(self::lines(inside)),
            },
            part => lines.extend(self::lines(part)),
        }
    }
    lines
}

/// What the page must have under the heading of a structure.
fn expected(structure: &str, name: &str) -> Vec<Line> {
    let of = |name| table(name).parts().into_iter().flat_map(lines).collect();
    let mut lines: Vec<Line> = of(name);
    match structure {
        "splice_info_section()" => {
            // the tables end before it
            let (name, bits) = ("CRC_32".to_string(), 32);
            lines.push(Line::Field(Row { name, bits }));
        }
        // under one heading with what an unknown command has
        "private_command()" => lines.extend(of("sized_command").pop()),
        "splice_descriptor()" => {
            // those of the known tags have headings of their own
            lines.retain(|line| matches!(line, Line::Field(_)));
            // an unknown tag, and another identifier
            assert_eq!(lines.pop().as_ref(), lines.last());
        }
        _ => {}
    }
    lines
}

#[test]
fn the_page_has_the_tables() {
    let told = page::structures();
    let names: Vec<&str> = told.iter().map(|(name, _)| *name).collect();
    assert_eq!(names, STRUCTURES.map(|(page, _)| page));
    for ((name, told), (_, grammar)) in told.iter().zip(STRUCTURES) {
        assert_eq!(*told, expected(name, grammar), "{name}");
    }
}

/// The structure for each value of a field, by the page's name for it; none for nothing.
fn by_value(table: &Table, name: &str) -> Vec<(u64, Option<&'static str>)> {
    let Table::Branch(Test::Is(field, value), [yes, no, on]) = table else {
        return Vec::new();
    };
    assert!(field == name && matches!(**on, Table::Done));
    let structure = match &**yes {
        Table::Named(name, _) => on_the_page(name),
        _ => None,
    };
    let others = by_value(no, name);
    [vec![(*value, structure)], others].concat()
}

#[test]
fn the_page_has_the_types_and_the_tags() {
    let section = table("splice_info_section");
    let commands = section.last("command").expect("the commands");
    let types = by_value(commands, "splice_command_type");
    assert_eq!(page::types(), types);
    let descriptors = section.last("known_descriptor");
    let tags = by_value(
        descriptors.expect("the descriptors"),
        "splice_descriptor_tag",
    );
    assert_eq!(page::tags(), tags);
}

/// The second program's fields of a section with their widths and numbers, all but CRC_32.
fn fields(section: &[u8]) -> Vec<(&'static str, usize, u64)> {
    let mut fields = Vec::new();
    for item in accept(section).expect("an accepted section").items() {
        match item {
            Item::Number(name, width, value) => fields.push((name, width, value)),
            Item::Bytes(name, bytes) => {
                fields.extend(bytes.iter().map(|byte| (name, 8, u64::from(*byte))));
            }
            Item::Open(_) | Item::Close => {}
        }
    }
    let last = fields.pop().expect("a field");
    assert_eq!((last.0, last.1), ("CRC_32", 32));
    fields
}

/// A section read by the tables has the second program's fields and numbers, and every row is met.
#[test]
fn the_second_program_reads_by_the_tables() {
    println!("seed {:#018x}", seed());
    let random = &mut Random::new(seed());
    let table = table("splice_info_section");
    let mut met = BTreeSet::new();
    for _ in 0..5_000 {
        let section = any_section(random, Size::Short).bytes;
        let read = Reader::all(&section, &table).expect("no rule is broken");
        let read = read.into_iter().map(|(row, number)| {
            met.insert(row as *const Row);
            (row.name.as_str(), row.bits, number)
        });
        assert_eq!(read.collect::<Vec<_>>(), fields(&section));
    }
    let unmet = |row: &&Row| !met.contains(&(*row as *const Row));
    assert_eq!(table.rows().into_iter().find(unmet), None);
}
