//! The samples that the papers print, as they print them, copying faults included, and restored.

use crate::support::Bench;
use second::refusal::TEXTLEN;
use second::samples::{Sample, Text, PUBLISHED};

const PLENTY: usize = 6000;

/// Every text of the samples, as printed and as restored, with what line mode answers to it.
fn texts() -> impl Iterator<Item = &'static Text> {
    let samples = PUBLISHED.iter();
    samples.flat_map(|sample| std::iter::once(&sample.printed).chain(&sample.restored))
}

/// Those that are sections with a right CRC, 004's first.
pub fn whole() -> Vec<&'static str> {
    let whole = PUBLISHED.iter().rev().filter_map(Sample::whole);
    whole.collect()
}

/// Good base64, but what it holds is not a section with a right CRC.
pub fn damaged() -> Vec<&'static str> {
    let damaged = texts().filter(|text| ["R 2", "R 4", "R 5"].contains(&text.answer));
    damaged.map(|text| text.text).collect()
}

/// Characters were lost or added, so the length gives them away.
fn miscounted() -> Vec<&'static str> {
    let miscounted = texts().filter(|text| text.answer == "R 12");
    miscounted.map(|text| text.text).collect()
}

#[test]
fn there_are_samples_of_each_sort() {
    let counts = [whole().len(), damaged().len(), miscounted().len()];
    assert_eq!(counts, [12, 5, 4]);
}

#[test]
fn samples_are_read_and_written_back() {
    let mut bench = Bench::new();
    for text in whole().into_iter().chain(damaged()) {
        let section = bench.text_to_section(text.as_bytes(), PLENTY).unwrap();
        let back = bench.section_to_text(&section, PLENTY).unwrap();
        assert_eq!(back, text.as_bytes());
        let is_whole = whole().contains(&text);
        assert_eq!(bench.crc32(&section) == 0, is_whole, "{text}");
    }
}

#[test]
fn miscounted_samples_are_refused() {
    let mut bench = Bench::new();
    for text in miscounted() {
        let answer = bench.text_to_section(text.as_bytes(), PLENTY);
        assert_eq!(answer, Err(TEXTLEN), "{text}");
    }
}

#[test]
fn the_pairs_of_rfc_4648() {
    let mut bench = Bench::new();
    let pairs = [
        ("", ""),
        ("f", "Zg=="),
        ("fo", "Zm8="),
        ("foo", "Zm9v"),
        ("foob", "Zm9vYg=="),
        ("fooba", "Zm9vYmE="),
        ("foobar", "Zm9vYmFy"),
    ];
    for (bytes, text) in pairs {
        let section = bench.text_to_section(text.as_bytes(), PLENTY);
        assert_eq!(section, Ok(bytes.into()));
        let back = bench.section_to_text(bytes.as_bytes(), PLENTY);
        assert_eq!(back, Ok(text.into()));
    }
}
