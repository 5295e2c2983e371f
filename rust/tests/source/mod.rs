//! The files of the repository, for tests that hold one to another.

use std::fs;
use std::path::{Path, PathBuf};

fn root() -> PathBuf {
    Path::new(env!("CARGO_MANIFEST_DIR")).join("..")
}

/// A file of the repository.
pub fn text(file: &str) -> String {
    fs::read_to_string(root().join(file)).unwrap_or_else(|error| panic!("{file}: {error}"))
}

/// The same without its comments: those of C in a header, or else those to the line's end.
pub fn read(file: &str) -> String {
    let text = text(file);
    if !file.ends_with(".h") {
        return text
            .lines()
            .map(|line| line.split("//").next().unwrap_or("").to_string() + "\n")
            .collect();
    }
    let mut parts = text.split("/*");
    let mut kept = parts.next().unwrap_or("").to_string();
    for part in parts {
        kept += part.split_once("*/").expect("a comment ends").1;
    }
    kept
}

/// The files of a folder that have this ending, and of those below it, but for what `rt` makes.
pub fn files(folder: &str, ending: &str) -> Vec<String> {
    let entries =
        fs::read_dir(root().join(folder)).unwrap_or_else(|error| panic!("{folder}: {error}"));
    let mut found = Vec::new();
    for entry in entries.map(|entry| entry.expect("an entry").path()) {
        let name = format!(
            "{folder}/{}",
            entry.file_name().expect("a name").to_string_lossy()
        );
        if entry.is_dir() {
            if !name.ends_with("/out") {
                found.extend(files(&name, ending));
            }
        } else if entry.extension().is_some_and(|found| found == ending) {
            found.push(name);
        }
    }
    found
}
