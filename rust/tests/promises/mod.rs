//! The functions of a crate and its wrong readers, changes under must-fail/ that the prover refuses.

use std::collections::BTreeSet;

use crate::{files, text};

/// A change that the prover refuses, by its line in an edit: `# wrong reader NAME of WHAT: what it does`, where WHAT is
/// `FUNCTION, ..` or `FILE, refused by FUNCTION OR LAW, ..`.
pub struct WrongReader {
    pub name: String,
    /// The functions that it changes, or whose proof refuses it.
    pub of: BTreeSet<String>,
}

fn wrong_reader(line: &str) -> Option<WrongReader> {
    let (said, _) = line.strip_prefix("# wrong reader ")?.split_once(": ")?;
    let (name, what) = said.split_once(" of ")?;
    let of = what.split_once(", refused by ").map_or(what, |(_, by)| by);
    Some(WrongReader {
        name: name.to_string(),
        of: of.split(", ").map(str::to_string).collect(),
    })
}

/// A crate's wrong readers. Each edit has one at least.
pub fn wrong_readers(name: &str) -> Vec<WrongReader> {
    let folder = format!("crates/{name}/must-fail");
    let mut readers = Vec::new();
    for edit in files(&folder, ".edit") {
        let before = readers.len();
        let lines = text(&format!("{folder}/{edit}.edit"));
        readers.extend(lines.lines().filter_map(wrong_reader));
        assert!(before < readers.len(), "{folder}/{edit}: no wrong reader");
    }
    readers
}

/// A function of a crate, by the path that its wrong readers name it by.
pub struct Function {
    pub path: String,
    pub is_public: bool,
    body: String,
}

fn is_word(c: char) -> bool {
    c.is_alphanumeric() || c == '_'
}

impl Function {
    fn calls(&self, other: &Function) -> bool {
        let name = other.path.rsplit("::").next().expect("a name");
        let call = format!("{name}(");
        let mut calls = self.body.match_indices(&call);
        calls.any(|(at, _)| !self.body[..at].ends_with(is_word))
    }
}

/// The name of the function that a line begins, and whether others may call it.
fn begins(line: &str) -> Option<(&str, bool)> {
    let line = line.trim_start();
    let public = line.strip_prefix("pub ");
    let rest = line.strip_prefix("pub(crate) ").or(public).unwrap_or(line);
    let rest = rest.strip_prefix("extern \"C\" ").unwrap_or(rest);
    let rest = rest.strip_prefix("fn ")?;
    let end = rest.find(|c| !is_word(c))?;
    Some((&rest[..end], public.is_some()))
}

/// The functions of a crate, those that it passes on left out.
pub fn functions(name: &str) -> Vec<Function> {
    let folder = format!("crates/{name}/src");
    let mut found = Vec::new();
    for module in files(&folder, ".rt") {
        let source = text(&format!("{folder}/{module}.rt"));
        let root = match &module[..] {
            "lib" | "main" => String::new(),
            _ => format!("{module}::"),
        };
        let mut owner = String::new();
        let mut lines = source.lines();
        while let Some(line) = lines.next() {
            if let Some(rest) = line.strip_prefix("impl ") {
                let end = rest.find(['<', ' ']).unwrap_or(rest.len());
                owner = format!("{}::", &rest[..end]);
            } else if line == "}" {
                owner.clear();
            } else if let Some((name, is_public)) = begins(line) {
                let indent = &line[..line.len() - line.trim_start().len()];
                let end = format!("{indent}}}");
                let body: Vec<&str> = lines.by_ref().take_while(|line| *line != end).collect();
                let path = format!("{root}{owner}{name}");
                found.push(Function {
                    path,
                    is_public,
                    body: body.join("\n"),
                });
            }
        }
    }
    found
}

/// The paths of a function and of the private ones that it calls, directly or not.
pub fn reached(function: &Function, all: &[Function]) -> BTreeSet<String> {
    let mut paths = BTreeSet::from([function.path.clone()]);
    let mut left = vec![function];
    while let Some(caller) = left.pop() {
        for other in all {
            let is_own = !other.is_public && caller.calls(other);
            if is_own && paths.insert(other.path.clone()) {
                left.push(other);
            }
        }
    }
    paths
}
