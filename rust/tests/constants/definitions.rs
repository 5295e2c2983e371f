//! The definitions in `specs/` by which an answer is a list of numbers: those of every crate whose names end in
//! `_numbers`. What is not of their form is a failure.

use std::collections::BTreeMap;

use crate::named::case_of;
use crate::source::{files, text};

#[derive(Clone, Debug, PartialEq, Eq)]
pub enum Element {
    Number(u64),
    /// A value, by the name of its field where it has one.
    Value(Option<String>),
    /// The list of another definition.
    Part(String),
}

/// What an answer says in one case: `Command.Null`, by its enum, or `DashDuration.None`, as the wrapper calls it.
pub struct Case {
    pub name: String,
    pub list: Vec<Element>,
}

/// The cases of each definition, in order.
pub type Answers = BTreeMap<String, Vec<Case>>;

/// All of them. A definition of one case without a name is a part that others are made of, and stands in them.
pub fn answers() -> Answers {
    let mut found = Answers::new();
    for [name, patterns, body] in equations().iter() {
        // the table of a cue's avail numbers is none of them
        if !name.ends_with("_numbers") || name == "avail_numbers" {
            continue;
        }
        let words: Vec<&str> = patterns.split(['(', ')', ' ']).collect();
        if words.contains(&"Err") {
            assert_eq!(body, "refused (number_of r)", "{name}");
            continue;
        }
        let case = case_of(name, &words);
        let list = elements(&tokens(body));
        found
            .entry(name.to_string())
            .or_default()
            .push(Case { name: case, list });
    }
    let (parts, mut answers): (Answers, Answers) = found
        .into_iter()
        .partition(|(_, cases)| cases.iter().all(|case| case.name.is_empty()));
    for case in answers.values_mut().flatten() {
        case.list = filled(&case.list, &parts);
    }
    answers
}

/// The value of the equation `NAME PATTERNS = VALUE`, wherever it stands.
pub fn value_of(head: &str) -> String {
    let equations = equations();
    let mut found = equations
        .iter()
        .filter(|[name, patterns, _]| format!("{name} {patterns}") == head);
    let [_, _, value] = found
        .next()
        .unwrap_or_else(|| panic!("no equation of {head}"));
    assert!(found.next().is_none(), "two equations of {head}");
    value.clone()
}

/// What stands behind this start of a law, in the one file that has it.
pub fn stated(law: &str) -> String {
    let laws = files("crates", "antt").into_iter();
    let found = laws.filter_map(|file| Some(text(&file).split_once(law)?.1.to_string()));
    let found: Vec<String> = found.collect();
    assert_eq!(found.len(), 1, "one law {law}");
    found[0].lines().next().unwrap_or("").to_string()
}

/// Every equation of every `specs/`: its name, its patterns and its body.
pub fn equations() -> Vec<[String; 3]> {
    let specs = files("crates", "antt")
        .into_iter()
        .filter(|file| file.contains("/specs/"));
    let statements = specs.flat_map(|file| statements(&text(&file)));
    let equations = statements.filter_map(|statement| {
        let (head, body) = statement.split_once(" = ")?;
        let (name, patterns) = head.split_once(' ').unwrap_or((head, ""));
        Some([name, patterns, body].map(|part| part.trim().to_string()))
    });
    equations.collect()
}

/// A statement starts at the left edge and goes on in lines that are set in.
fn statements(text: &str) -> Vec<String> {
    let mut statements: Vec<String> = Vec::new();
    for line in text.lines() {
        let code = line.split("--").next().unwrap_or("").trim_end();
        match statements.last_mut() {
            Some(last) if code.starts_with(' ') => *last += &format!(" {}", code.trim_start()),
            _ => statements.push(code.to_string()),
        }
    }
    statements
}

fn tokens(text: &str) -> Vec<String> {
    let spaced = text.replace('(', " ( ").replace(')', " ) ");
    spaced.split_whitespace().map(str::to_string).collect()
}

/// A list: `A ∷ LIST`, `LIST ++ LIST`, `[]`, `these LIST`, or one of another definition.
fn elements(tokens: &[String]) -> Vec<Element> {
    let mut depth = 0;
    for (place, token) in tokens.iter().enumerate() {
        let (before, behind) = (&tokens[..place], &tokens[place + 1..]);
        match (token.as_str(), depth) {
            ("(", _) => depth += 1,
            (")", _) => depth -= 1,
            ("∷", 0) => return [vec![element(before)], elements(behind)].concat(),
            ("++", 0) => return [elements(before), elements(behind)].concat(),
            _ => {}
        }
    }
    match words(tokens)[..] {
        ["[]"] => Vec::new(),
        ["(", .., ")"] => elements(&tokens[1..tokens.len() - 1]),
        ["these", ..] => elements(&tokens[1..]),
        [name, ..] if name.ends_with("_numbers") => vec![Element::Part(name.to_string())],
        _ => panic!("no list: {tokens:?}"),
    }
}

/// A number, a name with the fields that are asked of it, or what a function makes one number of.
fn element(tokens: &[String]) -> Element {
    match words(tokens)[..] {
        ["(", .., ")"] => element(&tokens[1..tokens.len() - 1]),
        ["flag_number" | "held_number", ..] => element(&tokens[1..]),
        [number] if number.parse::<u64>().is_ok() => Element::Number(number.parse().unwrap()),
        [value] => {
            let mut parts = value.split('.');
            let name = parts.next().unwrap_or("");
            assert!(
                !name.is_empty() && name.chars().all(|c| c.is_ascii_lowercase()),
                "no name: {tokens:?}"
            );
            // the fields of a value, of which the last with a name is told; `0` is the number in a value of one field,
            // and a part's place and length are told in words
            let named = parts.rev().find(|field| *field != "0");
            let named = named.filter(|field| !matches!(*field, "at" | "length"));
            Element::Value(named.map(str::to_string))
        }
        [_, ..] => panic!("no element: {tokens:?}"),
        [] => panic!("an element is missing"),
    }
}

fn words(tokens: &[String]) -> Vec<&str> {
    tokens.iter().map(String::as_str).collect()
}

/// The list with these parts' own in place of their names.
fn filled(list: &[Element], parts: &Answers) -> Vec<Element> {
    let of = |element: &Element| match element {
        Element::Part(name) => match parts.get(name).map(Vec::as_slice) {
            Some([part]) => filled(&part.list, parts),
            Some(_) => panic!("{name} has cases without names"),
            None => vec![element.clone()],
        },
        _ => vec![element.clone()],
    };
    list.iter().flat_map(of).collect()
}
