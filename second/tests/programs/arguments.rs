//! With an argument, any, the program says how it is used, and answers nothing.

use super::programs::{ended, proved};
use std::fs::File;

#[test]
fn any_argument() {
    for arguments in [&["../samples/day.txt"][..], &["--help"], &[""], &["a", "b"]] {
        let day = File::open("../samples/day.txt").expect("the sample day");
        let child = proved().args(arguments).stdin(day).spawn();
        let output = ended(child.expect("the program starts"));
        assert!(output.stdout.is_empty(), "{arguments:?}");
        let told = String::from_utf8_lossy(&output.stderr);
        assert_eq!(told, "usage: tally <TEXTS >ANSWERS\n", "{arguments:?}");
    }
}
