//! Input that comes through a pipe in pieces, and answers that are wanted before the input ends.

use super::programs::{ended, fed, proved, second};
use super::same_lines::same_lines;
use super::texts::{cut_at_random, input_of};
use super::{random, written};
use second::day;
use second::lines::answers;
use std::io::{BufRead, BufReader, Write};
use std::process::{Command, Output};
use std::sync::mpsc::channel;
use std::thread;
use std::time::Duration;

/// What a program makes of pieces with a pause between them.
fn in_pieces(program: Command, pieces: &[&[u8]], pause: Duration) -> Output {
    fed(program, |to| {
        for piece in pieces {
            to.write_all(piece)?;
            thread::sleep(pause);
        }
        Ok(())
    })
}

#[test]
fn pieces_with_pauses() {
    let mut random = random();
    let input = input_of(&mut random, 60);
    let parts = cut_at_random(&mut random, &input, 400);
    let pause = Duration::from_millis(4);
    let by_proved = written(in_pieces(proved(), &parts, pause));
    let by_second = written(in_pieces(second(), &parts, pause));
    same_lines("pieces with pauses", &input, &by_second, &by_proved);
    assert_eq!(by_second, answers(&input).into_bytes());
}

#[test]
fn the_sample_day_byte_by_byte() {
    let input = day::file();
    let bytes: Vec<&[u8]> = input.as_bytes().chunks(1).collect();
    let answered = written(in_pieces(proved(), &bytes, Duration::from_micros(50)));
    assert_eq!(answered, answers(input.as_bytes()).into_bytes());
}

/// A line is answered before the next one comes.
#[test]
fn a_conversation() {
    let mut program = proved();
    let mut child = program.spawn().expect("the program starts");
    let mut to = child.stdin.take().expect("a pipe");
    let from = BufReader::new(child.stdout.take().expect("a pipe"));
    let (tell, told) = channel();
    thread::spawn(move || {
        from.lines()
            .try_for_each(|line| tell.send(line.expect("a line")))
    });
    for line in day::lines() {
        let input = line.text + "\n";
        to.write_all(input.as_bytes())
            .expect("the program reads on");
        let answer = told.recv_timeout(Duration::from_secs(60));
        assert_eq!(answer.as_deref(), Ok(line.answer), "{}", line.what);
    }
    drop(to);
    assert!(written(ended(child)).is_empty());
}
