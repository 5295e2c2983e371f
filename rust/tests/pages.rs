//! The pages under docs/ name what is there: every crate, every wrong reader, every file.

mod promises;

use std::collections::BTreeSet;
use std::fs;
use std::path::{Path, PathBuf};

use promises::{functions, reached, wrong_readers, WrongReader};

fn at(path: &str) -> PathBuf {
    Path::new(env!("CARGO_MANIFEST_DIR")).join("..").join(path)
}

fn text(path: &str) -> String {
    fs::read_to_string(at(path)).unwrap_or_else(|error| panic!("{path}: {error}"))
}

/// The files of a folder that have this ending, without it; none where there is no such folder.
fn files(folder: &str, ending: &str) -> Vec<String> {
    let Ok(entries) = fs::read_dir(at(folder)) else {
        return Vec::new();
    };
    let names = entries.map(|entry| entry.expect("an entry").file_name());
    let names = names.map(|name| name.into_string().expect("a name"));
    names
        .filter_map(|name| name.strip_suffix(ending).map(str::to_string))
        .collect()
}

/// The names of the crates, from crates.txt.
fn crates() -> Vec<String> {
    let list = text("crates.txt");
    let lines = list.lines().filter(|line| !line.starts_with('#'));
    let names = lines.filter_map(|line| line.split_once(':'));
    names
        .map(|(name, _)| name.trim_end_matches(" staticlib").to_string())
        .collect()
}

/// What stands between backquotes.
fn quoted(page: &str) -> Vec<&str> {
    page.split('`').skip(1).step_by(2).collect()
}

#[test]
fn each_crate_has_its_row() {
    let page = text("docs/ARCHITECTURE.md");
    for name in crates() {
        let row = format!("\n| `{name}` | ");
        assert!(page.contains(&row), "no row for {name}");
    }
}

#[test]
fn each_wrong_reader_is_named() {
    let page = text("docs/PROMISES.md");
    let named = quoted(&page);
    for name in crates() {
        let mut seen = BTreeSet::new();
        for reader in wrong_readers(&name) {
            let reader = reader.name;
            assert!(named.contains(&&reader[..]), "{name}/{reader}");
            assert!(seen.insert(reader.clone()), "{name}/{reader} stands twice");
        }
    }
}

/// They change the function itself, or a private one that it calls.
#[test]
fn there_are_two_wrong_readers_for_each_public_function() {
    for name in crates() {
        let (functions, readers) = (functions(&name), wrong_readers(&name));
        let public = functions.iter().filter(|function| function.is_public);
        let (count, found) = (public.clone().count(), readers.len());
        assert!(
            found >= 2 * count,
            "{name}: {count} functions, {found} wrong readers"
        );
        for function in public {
            let paths = reached(function, &functions);
            let is_own = |reader: &&WrongReader| !reader.of.is_disjoint(&paths);
            let own = readers.iter().filter(is_own).count();
            assert!(own >= 2, "{name}/{}: {own} wrong readers", function.path);
        }
    }
}

/// A quoted path into a crate is that of a file or a folder.
#[test]
fn each_file_is_there() {
    let names = crates();
    for page in files("docs", ".md") {
        for path in quoted(&text(&format!("docs/{page}.md"))) {
            let mut parts = path.split('/');
            let name = parts.next().unwrap_or("");
            let inside = matches!(parts.next(), Some("specs" | "proofs" | "src" | "must-fail"));
            if inside && names.iter().any(|known| known == name) {
                assert!(
                    at("crates").join(path).exists(),
                    "docs/{page}.md names {path}"
                );
            }
        }
    }
}
