//! Functions out of the text of a source file. A function has one form, whatever language declares it: its parameters
//! as Rust's `extern "C"` writes them. A list is two of them: `&[u8]` named `section` is
//! `section: *const u8, section_len: usize`, and the length of `out` is named `room`.

use std::collections::BTreeMap;
use std::fmt;

use crate::source::{files, read};

#[derive(PartialEq, Eq)]
pub struct Function {
    /// Name and kind of each.
    pub parameters: Vec<(String, String)>,
    pub answer: String,
}

impl fmt::Display for Function {
    fn fmt(&self, f: &mut fmt::Formatter<'_>) -> fmt::Result {
        let parameters = self.parameters.iter();
        let parameters: Vec<_> = parameters
            .map(|(name, kind)| format!("{name}: {kind}"))
            .collect();
        write!(f, "({}) -> {}", parameters.join(", "), self.answer)
    }
}

pub type Functions = BTreeMap<String, Function>;

/// The functions that the proved source exports: those of every crate whose name starts with `exports`.
pub fn exports() -> Functions {
    let mut found = Functions::new();
    let source = files("crates", "rt").into_iter();
    for file in source.filter(|file| file.starts_with("crates/exports") && file.contains("/src/")) {
        let text = read(&file);
        let functions: Functions = text
            .split("pub extern \"C\" fn ")
            .skip(1)
            .map(|text| function(text, rattle))
            .collect();
        let marked = text.matches("#[unsafe(no_mangle)]").count();
        assert_eq!(functions.len(), marked, "functions and marks in {file}");
        found.extend(functions);
    }
    found
}

/// The functions of the archive that a Rust file declares in its `extern "C"` blocks.
pub fn of_rust(text: &str) -> Functions {
    let blocks = text
        .split("extern \"C\" {")
        .skip(1)
        .map(|block| block.split("\n}").next().unwrap_or(""));
    let declared = blocks.flat_map(|block| block.split("fn ").skip(1));
    declared
        .filter(|text| text.starts_with("timpanimist_"))
        .map(|text| function(text, |name, kind| vec![(name, kind)]))
        .collect()
}

/// The functions that a C header declares.
pub fn of_c(text: &str) -> Functions {
    let plain = text
        .lines()
        .filter(|line| !line.starts_with('#'))
        .collect::<Vec<_>>()
        .join("\n");
    let statements = plain
        .split(';')
        .map(|text| text.rsplit(['{', '}']).next().unwrap_or("").trim());
    let declared = statements.filter(|text| text.contains(" timpanimist_") && text.ends_with(')'));
    declared.map(declaration).collect()
}

/// A function in Rattle's or Rust's form, from its name on.
fn function(text: &str, split: fn(String, String) -> Vec<(String, String)>) -> (String, Function) {
    let (name, text) = text.split_once('(').expect("parameters");
    let (list, text) = text.split_once(')').expect("an end of the parameters");
    let named = list
        .split(',')
        .filter(|one| !one.trim().is_empty())
        .map(|one| {
            let (name, kind) = one.split_once(':').expect("a name and a kind");
            (name.trim().to_string(), kind.trim().to_string())
        });
    let parameters = named.flat_map(|(name, kind)| split(name, kind)).collect();
    let answer = text
        .trim_start()
        .strip_prefix("->")
        .expect("an answer")
        .trim_start();
    let answer = answer
        .split([' ', '\n', ';', '{'])
        .next()
        .unwrap_or("")
        .to_string();
    (name.to_string(), Function { parameters, answer })
}

/// A parameter of Rattle: a slice is a pointer and a length.
fn rattle(name: String, kind: String) -> Vec<(String, String)> {
    let (pointer, slice) = match kind.strip_prefix("&mut [") {
        Some(element) => ("*mut", Some(element)),
        None => ("*const", kind.strip_prefix("&[")),
    };
    let Some(element) = slice.and_then(|slice| slice.strip_suffix(']')) else {
        return vec![(name, kind)];
    };
    let length = if name == "out" {
        "room".to_string()
    } else {
        format!("{name}_len")
    };
    vec![
        (name, format!("{pointer} {element}")),
        (length, "usize".to_string()),
    ]
}

/// A declaration of C: `ANSWER NAME(PARAMETERS)`.
fn declaration(text: &str) -> (String, Function) {
    let (head, list) = text.split_once('(').expect("parameters");
    let (answer, name) = head.trim().rsplit_once(' ').expect("an answer and a name");
    let list = list.strip_suffix(')').expect("an end of the parameters");
    let parameters = list.split(',').map(|one| {
        let one = one.trim();
        let split = one.rfind([' ', '*']).expect("a kind and a name") + 1;
        (one[split..].to_string(), kind_of_c(one[..split].trim()))
    });
    (
        name.to_string(),
        Function {
            parameters: parameters.collect(),
            answer: kind_of_c(answer.trim()),
        },
    )
}

fn kind_of_c(kind: &str) -> String {
    if let Some(element) = kind.strip_suffix('*') {
        let (pointer, element) = match element.trim().strip_prefix("const ") {
            Some(element) => ("*const", element),
            None => ("*mut", element.trim()),
        };
        return format!("{pointer} {}", kind_of_c(element));
    }
    let kind = match kind {
        "uint8_t" => "u8",
        "uint32_t" => "u32",
        "uint64_t" => "u64",
        "size_t" => "usize",
        "bool" => "bool",
        other => panic!("{other} is no kind of the boundary"),
    };
    kind.to_string()
}
