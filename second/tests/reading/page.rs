//! README.md says what the flat lists are: every answer follows its tables, and every row is met.

use crate::built::{any_section, Size};
use crate::random;
use second::reading::{entries, Entry, Reading};
use second::section::Apart;
use std::collections::BTreeSet;

const PAGE: &str = include_str!("../../README.md");

/// A row of the table: an answer or a part, one of its cases, and what stands behind.
struct Row {
    what: &'static str,
    case: &'static str,
    number: Option<u64>,
    then: Vec<&'static str>,
}

fn rows() -> Vec<Row> {
    let (_, table) = PAGE
        .split_once("| answer or part | case | number | then |\n|---|---|---|---|\n")
        .expect("the table");
    let lines = table.lines().take_while(|line| line.starts_with('|'));
    lines.map(row).collect()
}

fn row(line: &'static str) -> Row {
    let inside = line
        .strip_prefix('|')
        .and_then(|line| line.strip_suffix('|'));
    let cells: Vec<_> = inside.expect("a row").split('|').map(str::trim).collect();
    let then = cells[3].split(", ").filter(|name| !name.is_empty());
    Row {
        what: cells[0],
        case: cells[1],
        number: cells[2].parse().ok(),
        then: then.collect(),
    }
}

/// The table, and which of its rows were followed.
struct Table {
    rows: Vec<Row>,
    met: BTreeSet<usize>,
}

impl Table {
    fn holds(&mut self, what: &str, answer: Result<impl Reading, u8>) {
        if let Ok(answer) = answer {
            let list = entries(&answer);
            let behind = self.follow(what, &list);
            assert_eq!(behind, [], "{what}: {list:?}");
        }
    }

    /// What is left of the list behind this answer or part.
    fn follow<'a>(&mut self, what: &str, list: &'a [Entry]) -> &'a [Entry] {
        let (case, mut left) = match list {
            [Entry::Case(of, case, number), left @ ..] if *of == what => {
                (Some((*case, *number)), left)
            }
            _ => (None, list),
        };
        let fits =
            |row: &Row| row.what == what && row.number.map(|number| (row.case, number)) == case;
        let place = self.rows.iter().position(fits);
        let place = place.unwrap_or_else(|| panic!("no row for {what}: {list:?}"));
        self.met.insert(place);
        for name in self.rows[place].then.clone() {
            left = match (name.strip_prefix('*'), left) {
                (Some(part), _) => self.follow(part.trim_end_matches('*'), left),
                (None, [Entry::Value(of, _) | Entry::Bytes(of, _), left @ ..]) => {
                    assert_eq!(name.trim_matches('`'), *of);
                    left
                }
                _ => panic!("{name} is not there: {list:?}"),
            };
        }
        left
    }
}

#[test]
fn answers_follow_the_table() {
    let random = &mut random();
    let rows = rows();
    let met = BTreeSet::new();
    let mut table = Table { rows, met };
    for _ in 0..3_000 {
        let built = any_section(random, Size::Short);
        let section = Apart::of(&built.bytes);
        table.holds("command", section.command());
        table.holds("descriptor count", section.descriptor_count());
        table.holds("break", section.break_answer());
        table.holds("DASH duration", section.dash_duration());
        table.holds("effective time", section.effective_time());
        table.holds("DVB", section.dvb());
        table.holds("label", Ok(section.bill_label(b"a house name")));
        for n in 0..3 {
            table.holds("insert component", section.insert_component(n));
            table.holds("event", section.event(n));
            table.holds("private byte", section.private_byte(n));
            table.holds("descriptor", section.descriptor(n));
            table.holds("UPID", section.upid(n));
            let m = 0;
            table.holds("event component", section.event_component(n, m));
            table.holds("DTMF character", section.dtmf_char(n, m));
            let component = section.segmentation_component(n, m);
            table.holds("segmentation component", component);
            table.holds("audio component", section.audio_component(n, m));
        }
    }
    let unmet = (0..table.rows.len()).find(|place| !table.met.contains(place));
    let unmet = unmet.map(|place| (table.rows[place].what, table.rows[place].case));
    assert_eq!(unmet, None);
}
