//! Line mode as a program: what it reads, what it writes and how it ends.

use second::lines::answers;
use second::samples::{FIRST_TEXT_OF_003, SECOND_TEXT_OF_003, TEXT_OF_004};
use std::fs::File;
use std::io::{BufRead, BufReader, Write};
use std::process::{Child, Command, Output, Stdio};
use std::thread;

fn line_mode() -> Command {
    let mut command = Command::new(env!("CARGO_BIN_EXE_second"));
    command.arg("tally");
    command.stdin(Stdio::piped());
    command.stdout(Stdio::piped());
    command.stderr(Stdio::piped());
    command
}

fn started() -> Child {
    line_mode().spawn().expect("the program starts")
}

/// The program's answer to an input that is written while its output is read.
fn run(input: Vec<u8>) -> Output {
    let mut child = started();
    let mut to = child.stdin.take().expect("a pipe");
    let writing = thread::spawn(move || to.write_all(&input).expect("all of it is read"));
    let output = child.wait_with_output().expect("an end");
    writing.join().expect("all of it is read");
    output
}

/// It ends well, writes this and tells nothing on standard error.
fn answers_with(input: impl Into<Vec<u8>>, expected: &str) {
    let output = run(input.into());
    assert_eq!(output.status.code(), Some(0));
    assert_eq!(String::from_utf8(output.stdout).as_deref(), Ok(expected));
    assert!(output.stderr.is_empty());
}

/// It ends with the status 3 and one line on standard error.
fn fails(output: Output) {
    assert_eq!(output.status.code(), Some(3));
    let told = String::from_utf8(output.stderr).expect("plain text");
    assert!(told.starts_with("second: "), "{told}");
    assert_eq!(told.lines().count(), 1, "{told}");
}

#[test]
fn the_three_lines_of_01() {
    let texts = [TEXT_OF_004, SECOND_TEXT_OF_003, FIRST_TEXT_OF_003];
    let input = texts.join("\n");
    answers_with(input.as_str(), "A 201467\nR 2\nR 12\n");
    answers_with(input + "\n", "A 201467\nR 2\nR 12\n");
}

#[test]
fn empty_lines_and_empty_inputs() {
    answers_with("", "");
    answers_with("\n", "R 1\n");
    answers_with("\n\n\r\n", "R 1\nR 1\nR 12\n");
}

#[test]
fn long_lines_before_a_good_one() {
    for length in [5465, 1_000_000] {
        let input = format!("{}\n{TEXT_OF_004}\n", "/".repeat(length));
        answers_with(input, "R 12\nA 201467\n");
    }
}

/// Every byte, and every answer to many lines.
#[test]
fn an_input_of_many_lines() {
    let mut input: Vec<u8> = (0..=255).collect();
    for count in 0..3000 {
        input.extend(&TEXT_OF_004.as_bytes()[..count % 77]);
        input.push(b'\n');
    }
    let expected = answers(&input);
    assert_eq!(expected.lines().count(), 3001);
    answers_with(input, &expected);
}

/// A line is answered before the next one comes.
#[test]
fn a_conversation() {
    let mut child = started();
    let mut to = child.stdin.take().expect("a pipe");
    let mut from = BufReader::new(child.stdout.take().expect("a pipe"));
    for (text, expected) in [(TEXT_OF_004, "A 201467\n"), ("", "R 1\n"), ("A", "R 12\n")] {
        to.write_all(format!("{text}\n").as_bytes()).expect("read");
        let mut answer = String::new();
        from.read_line(&mut answer).expect("an answer");
        assert_eq!(answer, expected);
    }
    drop(to);
    assert_eq!(child.wait().expect("an end").code(), Some(0));
}

/// A full disk, a file that is open for reading only, and a pipe that nobody reads any more.
#[test]
fn writes_that_fail() {
    let full = File::options().write(true).open("/dev/full").expect("full");
    let only_read = File::open("/dev/null").expect("empty");
    for file in [full, only_read] {
        let input = File::open("Cargo.toml").expect("some lines");
        let output = line_mode().stdin(input).stdout(file).output();
        fails(output.expect("the program starts"));
    }
    let mut child = started();
    drop(child.stdout.take());
    let mut to = child.stdin.take().expect("a pipe");
    to.write_all(b"\n").expect("read");
    fails(child.wait_with_output().expect("an end"));
}

/// A folder, and a file that is open for writing only.
#[test]
fn reads_that_fail() {
    let folder = File::open(".").expect("this folder");
    let only_written = File::options().write(true).open("/dev/null").expect("null");
    for file in [folder, only_written] {
        let output = line_mode().stdin(file).output();
        let output = output.expect("the program starts");
        assert!(output.stdout.is_empty());
        fails(output);
    }
}

#[test]
fn a_word_too_many_is_bad_usage() {
    let mut command = line_mode();
    command.arg("1").stdin(Stdio::null());
    let output = command.output().expect("the program starts");
    assert_eq!(output.status.code(), Some(2));
    assert!(output.stdout.is_empty());
}
