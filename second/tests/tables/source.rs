//! The definitions of the proved grammar's tables, as terms. It reads only what that file has: a line that is
//! no comment, no `use`, no signature and no equation of the signature before it is a failure.

use std::collections::BTreeMap;
use std::iter::Peekable;
use std::vec::IntoIter;

const TABLES: &str = include_str!("../../../crates/grammar/specs/Tables.antt");

#[derive(Clone, Debug)]
pub enum Term {
    Number(u64),
    Text(String),
    List(Vec<Term>),
    /// A name and what it is applied to.
    Call(String, Vec<Term>),
}

/// `NAME PARAMETERS = BODY`
pub struct Definition {
    parameters: Vec<String>,
    body: Term,
}

impl Definition {
    /// The body with these terms in place of the parameters.
    pub fn applied(&self, terms: &[Term]) -> Term {
        assert_eq!(self.parameters.len(), terms.len(), "as many as asked for");
        filled(&self.body, &self.parameters, terms)
    }
}

fn filled(term: &Term, parameters: &[String], terms: &[Term]) -> Term {
    let all = |inside: &[Term]| -> Vec<Term> {
        let inside = inside.iter();
        inside.map(|one| filled(one, parameters, terms)).collect()
    };
    match term {
        Term::Call(name, inside) => match parameters.iter().position(|one| one == name) {
            Some(place) if inside.is_empty() => terms[place].clone(),
            Some(_) => panic!("{name} is a parameter and no function"),
            None => Term::Call(name.clone(), all(inside)),
        },
        Term::List(inside) => Term::List(all(inside)),
        plain => plain.clone(),
    }
}

/// Every definition by its name.
pub fn definitions() -> BTreeMap<String, Definition> {
    let mut found = BTreeMap::new();
    let mut lines = statements().into_iter();
    while let Some(signature) = lines.next() {
        let signature: Vec<&str> = signature.split_whitespace().collect();
        let ["abbrev" | "unfoldable", "pub", name, ":", ..] = signature[..] else {
            panic!("no signature: {signature:?}");
        };
        let equation = lines.next().expect("an equation");
        let (head, body) = equation.split_once(" = ").expect("an equation has a body");
        let head: Vec<String> = head.split_whitespace().map(str::to_string).collect();
        assert_eq!(head[0], name, "the signature's own equation");
        let parameters = head[1..].to_vec();
        let body = term(body);
        let before = found.insert(name.to_string(), Definition { parameters, body });
        assert!(before.is_none(), "{name} is defined twice");
    }
    found
}

/// Signatures and equations, each on one line, without comments.
fn statements() -> Vec<String> {
    let mut statements: Vec<String> = Vec::new();
    for line in TABLES.lines() {
        let code = line.split("--").next().unwrap_or("").trim_end();
        if code.starts_with(' ') {
            let last = statements.last_mut().expect("a line to go on with");
            *last += " ";
            *last += code.trim_start();
        } else if !code.is_empty() && !code.starts_with("use ") {
            statements.push(code.to_string());
        }
    }
    statements
}

fn term(text: &str) -> Term {
    let mut tokens = tokens(text).into_iter().peekable();
    let term = chain(&mut tokens);
    assert_eq!(tokens.next(), None, "the term ends: {text}");
    term
}

fn tokens(text: &str) -> Vec<String> {
    let spaced = text.replace('(', " ( ").replace(')', " ) ");
    let tokens = spaced.split_whitespace();
    tokens.map(str::to_string).collect()
}

type Tokens = Peekable<IntoIter<String>>;

/// A list, `A ∷ B ∷ []`, or one term.
fn chain(tokens: &mut Tokens) -> Term {
    let first = application(tokens);
    if tokens.next_if(|token| token == "∷").is_none() {
        return first;
    }
    let Term::List(others) = chain(tokens) else {
        panic!("a list ends in []");
    };
    Term::List([vec![first], others].concat())
}

/// A name before what it is applied to, or one part alone.
fn application(tokens: &mut Tokens) -> Term {
    let first = part(tokens);
    let mut inside = Vec::new();
    while tokens
        .peek()
        .is_some_and(|token| token != "∷" && token != ")")
    {
        inside.push(part(tokens));
    }
    match first {
        Term::Call(name, none) if none.is_empty() => Term::Call(name, inside),
        alone if inside.is_empty() => alone,
        other => panic!("{other:?} is applied to {inside:?}"),
    }
}

fn part(tokens: &mut Tokens) -> Term {
    let token = tokens.next().expect("a part of a term");
    match token.as_str() {
        "(" => {
            let inside = chain(tokens);
            assert_eq!(tokens.next().as_deref(), Some(")"), "a parenthesis ends");
            inside
        }
        "[]" => Term::List(Vec::new()),
        word => plain(word),
    }
}

fn plain(word: &str) -> Term {
    let is_part_of_a_name = |c: char| c.is_ascii_alphanumeric() || c == '_';
    let quoted = word
        .strip_prefix('"')
        .and_then(|word| word.strip_suffix('"'));
    if let Some(text) = quoted {
        Term::Text(text.to_string())
    } else if let Some(digits) = word.strip_prefix("0x") {
        Term::Number(u64::from_str_radix(digits, 16).expect("a number in hex"))
    } else if let Ok(number) = word.parse() {
        Term::Number(number)
    } else if word.starts_with(|c: char| c.is_ascii_lowercase())
        && word.chars().all(is_part_of_a_name)
    {
        Term::Call(word.to_string(), Vec::new())
    } else {
        panic!("neither a number nor a name: {word}")
    }
}
