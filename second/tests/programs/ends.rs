//! Reading or writing that fails ends the program, and it says why. The papers set no exit status for
//! that, so none is asked for.

use super::programs::{ended, proved};
use std::fs::File;
use std::io::Write;
use std::process::Output;

/// One line of words on standard error.
fn tells(output: &Output) {
    let told = String::from_utf8_lossy(&output.stderr);
    assert_eq!(told.lines().count(), 1, "{told}");
    assert!(told.ends_with('\n'), "{told}");
    assert!(told.split_whitespace().count() > 2, "{told}");
}

/// A full disk, and a file that is open for reading only.
fn outputs_that_fail() -> [File; 2] {
    let full = File::options().write(true).open("/dev/full").expect("full");
    [full, File::open("/dev/null").expect("empty")]
}

/// A pipe that nobody reads any more: the program ends, by itself or by the system's signal.
#[test]
fn a_closed_output() {
    let mut child = proved().spawn().expect("the program starts");
    drop(child.stdout.take());
    let mut to = child.stdin.take().expect("a pipe");
    // The program can end before all of it is read.
    let _ = to.write_all(&b"\n".repeat(100_000));
    // The input stays open, so that its end is not what the program waits for.
    let output = ended(child);
    let silent = output.status.success() && output.stderr.is_empty();
    assert!(!silent, "nothing tells that the answers were lost");
    drop(to);
}

#[test]
fn writes_that_fail() {
    for file in outputs_that_fail() {
        let day = File::open("../samples/day.txt").expect("the sample day");
        let child = proved().stdin(day).stdout(file).spawn();
        let output = ended(child.expect("the program starts"));
        tells(&output);
    }
}

/// The first of them ends the program, with much of the input unread and its end not in sight.
#[test]
fn the_first_write_that_fails() {
    for file in outputs_that_fail() {
        let child = proved().stdout(file).spawn();
        let mut child = child.expect("the program starts");
        let mut to = child.stdin.take().expect("a pipe");
        let _ = to.write_all(&b"\n".repeat(1_000_000));
        tells(&ended(child));
        drop(to);
    }
}

/// A folder, and a file that is open for writing only: no answer is given.
#[test]
fn reads_that_fail() {
    let folder = File::open(".").expect("this folder");
    let only_written = File::options().write(true).open("/dev/null").expect("null");
    for file in [folder, only_written] {
        let child = proved().stdin(file).spawn();
        let output = ended(child.expect("the program starts"));
        assert!(output.stdout.is_empty());
        tells(&output);
    }
}
