//! The tables as data: what `crates/grammar/specs/Syntax.antt` lets a table say.

use crate::source::{definitions, Definition, Term};
use std::collections::BTreeMap;
use std::slice;

/// The reserved row of the header has a name in 002, which the page and the second program use.
const SAP_TYPE: &str = "sap_type";

#[derive(Clone, Debug, PartialEq, Eq)]
pub struct Row {
    pub name: String,
    pub bits: usize,
}

pub enum Test {
    Is(String, u64),
    Among(String, Vec<u64>),
    More,
}

pub enum Table {
    Done,
    Stop,
    Fields(Vec<Row>, Box<Table>),
    Branch(Test, [Box<Table>; 3]),
    Repeat(String, [Box<Table>; 2]),
    Frame(String, [Box<Table>; 2]),
    Fill([Box<Table>; 2]),
    /// `call` and `under`, whose number is for what is refused.
    Then([Box<Table>; 2]),
    /// A table of its own name.
    Named(String, Box<Table>),
}

impl Table {
    /// The tables in it, in order.
    pub fn parts(&self) -> Vec<&Table> {
        let parts = match self {
            Table::Done | Table::Stop => &[][..],
            Table::Fields(_, part) | Table::Named(_, part) => slice::from_ref(part),
            Table::Branch(_, parts) => parts,
            Table::Repeat(_, parts) | Table::Frame(_, parts) => parts,
            Table::Fill(parts) | Table::Then(parts) => parts,
        };
        parts.iter().map(|part| &**part).collect()
    }

    /// Every row, as often as it is written.
    pub fn rows(&self) -> Vec<&Row> {
        let own = match self {
            Table::Fields(rows, _) => rows.iter().collect(),
            _ => Vec::new(),
        };
        let others = self.parts().into_iter().map(Table::rows);
        [own].into_iter().chain(others).flatten().collect()
    }

    /// The last table under this name.
    pub fn last(&self, name: &str) -> Option<&Table> {
        match self {
            Table::Named(own, part) if own == name => Some(part),
            _ => self
                .parts()
                .into_iter()
                .rev()
                .find_map(|part| part.last(name)),
        }
    }
}

/// The table of that name.
pub fn table(name: &str) -> Table {
    let source = Source(definitions());
    source.table(&Term::Call(name.to_string(), Vec::new()))
}

struct Source(BTreeMap<String, Definition>);

impl Source {
    fn body(&self, name: &str, terms: &[Term]) -> Term {
        let definition = self.0.get(name);
        let definition = definition.unwrap_or_else(|| panic!("no definition of {name}"));
        definition.applied(terms)
    }

    fn boxed<const N: usize>(&self, terms: [&Term; N]) -> [Box<Table>; N] {
        terms.map(|term| Box::new(self.table(term)))
    }

    fn table(&self, term: &Term) -> Table {
        let Term::Call(name, terms) = term else {
            panic!("no table: {term:?}");
        };
        match (name.as_str(), terms.as_slice()) {
            ("done", []) => Table::Done,
            ("stop", []) => Table::Stop,
            ("fields", [rows, on]) => Table::Fields(self.rows(rows), Box::new(self.table(on))),
            ("branch", [test, yes, no, on]) => {
                Table::Branch(self.test(test), self.boxed([yes, no, on]))
            }
            ("call", [one, on]) => Table::Then(self.boxed([one, on])),
            ("repeat", [Term::Text(name), one, on]) => {
                Table::Repeat(name.clone(), self.boxed([one, on]))
            }
            ("frame", [Term::Text(name), one, on]) => {
                Table::Frame(name.clone(), self.boxed([one, on]))
            }
            ("fill", [one, on]) => Table::Fill(self.boxed([one, on])),
            ("under", [Term::Number(_), one, on]) => Table::Then(self.boxed([one, on])),
            (name, terms) => {
                let body = self.table(&self.body(name, terms));
                Table::Named(name.to_string(), Box::new(body))
            }
        }
    }

    fn rows(&self, term: &Term) -> Vec<Row> {
        match term {
            Term::List(rows) => rows.iter().map(row).collect(),
            Term::Call(name, terms) => {
                let mut rows = self.rows(&self.body(name, terms));
                for row in rows.iter_mut().filter(|row| row.name == "reserved") {
                    assert_eq!(name, "header", "rows of another name");
                    row.name = SAP_TYPE.to_string();
                }
                rows
            }
            other => panic!("no rows: {other:?}"),
        }
    }

    fn test(&self, term: &Term) -> Test {
        let Term::Call(name, terms) = term else {
            panic!("no test: {term:?}");
        };
        match (name.as_str(), terms.as_slice()) {
            ("is", [Term::Text(name), Term::Number(value)]) => Test::Is(name.clone(), *value),
            ("among", [Term::Text(name), values]) => {
                Test::Among(name.clone(), self.numbers(values))
            }
            ("more", []) => Test::More,
            other => panic!("no test: {other:?}"),
        }
    }

    fn numbers(&self, term: &Term) -> Vec<u64> {
        let number = |term: &Term| match term {
            Term::Number(number) => *number,
            other => panic!("no number: {other:?}"),
        };
        match term {
            Term::List(terms) => terms.iter().map(number).collect(),
            Term::Call(name, terms) => self.numbers(&self.body(name, terms)),
            other => panic!("no numbers: {other:?}"),
        }
    }
}

fn row(term: &Term) -> Row {
    let Term::Call(name, terms) = term else {
        panic!("no row: {term:?}");
    };
    let (name, bits) = match (name.as_str(), terms.as_slice()) {
        ("field", [Term::Number(bits), Term::Text(name)]) => (name.as_str(), *bits),
        ("reserved", [Term::Number(bits)]) => ("reserved", *bits),
        other => panic!("no row: {other:?}"),
    };
    let (name, bits) = (name.to_string(), bits as usize);
    Row { name, bits }
}
