//! The functions that the header and this crate declare are those of the proved source. `constants.rs` has the rest.

mod functions;
mod source;

use std::collections::BTreeSet;

use functions::{Function, Functions};
use source::{files, read};

const HEADER: &str = "include/timpanimist.h";
const FFI: &str = "rust/src/ffi.rs";

/// Both declare the same functions as the exports, with the same parameters.
#[test]
fn functions() {
    let exported = functions::exports();
    assert!(exported.len() > 20, "the exports were not found");
    same(HEADER, &functions::of_c(&read(HEADER)), &exported);
    same(FFI, &functions::of_rust(&read(FFI)), &exported);
}

/// Fails with the functions that the file declares otherwise than they are exported.
fn same(file: &str, declared: &Functions, exported: &Functions) {
    let told = |functions: &Functions, name| match functions.get(name) {
        Some(function) => function.to_string(),
        None => "none".to_string(),
    };
    let mut differences = String::new();
    for name in declared
        .keys()
        .chain(exported.keys())
        .collect::<BTreeSet<_>>()
    {
        if declared.get(name) != exported.get(name) {
            let (here, there) = (told(declared, name), told(exported, name));
            differences += &format!("\n{name}\n  here     {here}\n  exported {there}");
        }
    }
    assert!(
        differences.is_empty(),
        "{file} and the exports differ:{differences}"
    );
}

/// The comparison and the benchmark declare some of them, under names of their own for the parameters.
#[test]
fn functions_of_the_comparison_and_the_benchmark() {
    let exported = functions::exports();
    let compared = files("second/tests/proved", "rs");
    let measured = files("bench/src", "rs");
    for file in compared.iter().chain(&measured) {
        for (name, function) in functions::of_rust(&read(file)) {
            let exported = exported.get(&name).map(kinds);
            assert_eq!(
                Some(kinds(&function)),
                exported,
                "{name} in {file} and the exports"
            );
        }
    }
}

/// The kinds of a function's parameters and of its answer, without names.
fn kinds(function: &Function) -> Vec<&str> {
    let parameters = function.parameters.iter().map(|(_, kind)| &kind[..]);
    parameters.chain([&function.answer[..]]).collect()
}
