//! The numbers of cases: the header's, the wrapper's and those of docs/READINGS.md.

use std::collections::{BTreeMap, BTreeSet};

use crate::declared;
use crate::definitions::{answers, Case, Element};
use crate::named::{names, NAMED};
use crate::source::{files, read, text};
use crate::{put, HEADER, READINGS};

/// The number of a case, which its list opens with.
fn number(case: &Case) -> u64 {
    match case.list.first() {
        Some(Element::Number(number)) => *number,
        _ => panic!("{} has no number", case.name),
    }
}

#[test]
fn every_definition_is_listed() {
    let listed: BTreeSet<&str> = NAMED.iter().map(|named| named.definition).collect();
    let answers = answers();
    let found: BTreeSet<&str> = answers.keys().map(String::as_str).collect();
    assert_eq!(listed, found);
}

#[test]
fn cases_of_the_header() {
    let answers = answers();
    let mut defined = BTreeMap::new();
    for named in &NAMED {
        if let Some(start) = named.header {
            for case in &answers[named.definition] {
                put(
                    &mut defined,
                    format!("{start}{}", names(&case.name).0),
                    number(case),
                );
            }
        }
    }
    let mut declared = declared::enums(&read(HEADER));
    declared.retain(|name, _| !name.starts_with("REFUSAL_"));
    assert_eq!(declared, defined);
}

/// By the name of the answer, as docs/READINGS.md has it: each number and what the wrapper makes of it.
#[test]
fn cases_of_the_wrapper() {
    let answers = answers();
    let mut defined = BTreeSet::new();
    for named in &NAMED {
        let cases = &answers[named.definition][..];
        for case in cases.iter().filter(|_| cases.len() > 1) {
            let (answer, case_name) = match &case.name[..] {
                "Dvb.No" => ("flag", "false".to_string()),
                "Dvb.Yes" => ("flag", "true".to_string()),
                name => (named.page.unwrap_or(""), name.replace('.', "::")),
            };
            defined.insert((answer.to_string(), number(case), case_name));
        }
    }
    let sources = files("rust/src", "rs").into_iter();
    let read: BTreeSet<_> = sources
        .flat_map(|file| declared::cases(&read(&file)))
        .collect();
    assert_eq!(read, defined);
}

/// A row of the page fits a case: its name, its number and what comes then.
fn fits([case, number, then]: &[String; 3], defined: &Case) -> bool {
    let list = match defined.list.split_first() {
        Some((Element::Number(case), list)) if *number == case.to_string() => list,
        _ if case.is_empty() && number.is_empty() => &defined.list[..],
        _ => return false,
    };
    let case = case.split(':').next().unwrap_or("").to_lowercase();
    let named = number.is_empty() || case == names(&defined.name).1;
    let then: Vec<&str> = then.split(", ").filter(|one| !one.is_empty()).collect();
    let fits = |(told, element): (&&str, &Element)| match element {
        Element::Number(number) => **told == number.to_string(),
        Element::Value(Some(name)) => *told == format!("`{}`", in_the_standard(name)),
        Element::Value(None) => !told.starts_with('*'),
        Element::Part(definition) => {
            let part = NAMED.iter().find(|named| named.definition == definition);
            part.is_some_and(|part| *told == format!("*{}*", part.page.unwrap_or("")))
        }
    };
    named && then.len() == list.len() && then.iter().zip(list).all(fits)
}

#[test]
fn cases_of_the_page() {
    let answers = answers();
    let page = declared::rows(&text(READINGS), "case | number | then");
    let told: BTreeSet<&str> = page.iter().map(|row| &row[0][..]).collect();
    let listed: BTreeSet<&str> = NAMED.iter().filter_map(|named| named.page).collect();
    assert_eq!(told, listed);
    for named in NAMED.iter().filter(|named| named.page.is_some()) {
        let rows = page.iter().filter(|row| Some(&row[0][..]) == named.page);
        let rows: Vec<[String; 3]> = rows
            .map(|[_, case, number, then]| [case, number, then].map(String::clone))
            .collect();
        let cases = &answers[named.definition];
        assert_eq!(rows.len(), cases.len(), "{}", named.definition);
        for (row, case) in rows.iter().zip(cases) {
            assert!(fits(row, case), "{row:?} and {} {:?}", case.name, case.list);
        }
    }
}

/// A field's name as the standard spells it: four have capitals there, which no field of a struct has.
fn in_the_standard(name: &str) -> &str {
    match name {
        "iso_code" => "ISO_code",
        "bit_stream_mode" => "Bit_Stream_Mode",
        "num_channels" => "Num_Channels",
        "full_srvc_audio" => "Full_Srvc_Audio",
        other => other,
    }
}
