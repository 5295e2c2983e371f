//! Whole inputs for a program, each with a name.

use super::random::Random;
use super::texts::{any_line, damaged_text, good_text, long_line};
use second::day;
use second::samples::PUBLISHED;

pub struct File {
    pub name: &'static str,
    pub input: Vec<u8>,
}

fn file(name: &'static str, input: impl Into<Vec<u8>>) -> File {
    let input = input.into();
    File { name, input }
}

/// So many lines of a sort, each with its newline.
fn lines(random: &mut Random, count: usize, line: fn(&mut Random) -> Vec<u8>) -> Vec<u8> {
    let mut input = Vec::new();
    for _ in 0..count {
        input.extend(line(random));
        input.push(b'\n');
    }
    input
}

/// Every file; the random ones are those of this seed.
pub fn files(random: &mut Random) -> Vec<File> {
    let day = day::file();
    let noise = random.bytes(1_000_000);
    vec![
        file("empty input", ""),
        file("one newline", "\n"),
        file("newlines alone", vec![b'\n'; 200_000]),
        file("one character", "A"),
        file("the sample day", day.as_str()),
        file("the sample day without its final newline", day.trim_end()),
        file("the sample day with CRLF", day.replace('\n', "\r\n")),
        file("the published samples", published()),
        file("random cues", lines(random, 20_000, good_text)),
        file("damaged texts", lines(random, 20_000, damaged_text)),
        file("lines of every sort", lines(random, 20_000, any_line)),
        file("long lines", lines(random, 400, long_line)),
        file("binary noise", noise),
        file("zeros without a newline", vec![0; 1_000_000]),
        file("one line of 50 MB", vec![b'A'; 50_000_000]),
    ]
}

fn published() -> String {
    let texts = PUBLISHED.iter().flat_map(|sample| {
        let texts = std::iter::once(&sample.printed).chain(&sample.restored);
        texts.map(|text| text.text.to_string() + "\n")
    });
    texts.collect()
}
