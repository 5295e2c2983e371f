//! Sections of every kind, short and long, whole and changed.

use crate::built::{any_section, middling_section, with_crc, Size};
use crate::random;
use crate::sheet::{refused, same_answers};
use crate::told::Told;
use second::section::accept;

/// How often each case of the command and of a descriptor was met.
#[derive(Default)]
struct Met {
    commands: [usize; 8],
    descriptors: [usize; 6],
    sealed: usize,
}

impl Met {
    fn count(&mut self, told: Option<Told>) {
        let Some(told) = told else {
            self.sealed += 1;
            return;
        };
        self.commands[told.command[0] as usize] += 1;
        for descriptor in told.descriptors {
            self.descriptors[descriptor.list[0] as usize] += 1;
        }
    }

    fn at_least(&self, least: usize) {
        println!("commands {:?}", self.commands);
        println!("descriptors {:?}", self.descriptors);
        println!("sealed {}", self.sealed);
        let counts = self.commands.iter().chain(&self.descriptors);
        assert!(counts.chain([&self.sealed]).all(|count| *count >= least));
    }
}

#[test]
fn answers_are_what_the_sheet_tells() {
    let random = &mut random();
    let mut met = Met::default();
    for _ in 0..5_000 {
        let built = any_section(random, Size::Short);
        met.count(same_answers(random, &built.bytes));
    }
    met.at_least(100);
}

#[test]
fn long_sections_too() {
    let random = &mut random();
    for _ in 0..20 {
        let built = any_section(random, Size::Long);
        same_answers(random, &built.bytes);
    }
    for _ in 0..20 {
        let built = middling_section(random);
        same_answers(random, &built.bytes);
    }
}

/// A section with a byte changed is often another that is accepted; where not, every question has
/// the row that refuses it.
#[test]
fn changed_sections() {
    let random = &mut random();
    let mut accepted = 0;
    let mut rows = [0; 11];
    for _ in 0..200 {
        let built = any_section(random, Size::Short);
        for at in 0..built.bytes.len() {
            let mut section = built.bytes.clone();
            section[at] = random.number() as u8;
            if !random.once_in(8) {
                section = with_crc(&section);
            }
            match accept(&section) {
                Ok(_) => {
                    same_answers(random, &section);
                    accepted += 1;
                }
                Err(row) => {
                    refused(random, &section, row);
                    rows[usize::from(row)] += 1;
                }
            }
        }
        let count = random.within(0..=built.bytes.len() - 1);
        let cut = &built.bytes[..count];
        refused(
            random,
            cut,
            accept(cut).expect_err("a length that is wrong"),
        );
    }
    println!("accepted {accepted}, refused by row {rows:?}");
    assert!(accepted > 2_000);
}
