//! Facts about the typed readings, and the small tools that they share.

mod commands;
mod descriptors;
mod listings;
mod refusals;
mod samples;
mod schedules;
mod segmentations;
mod upids;

use super::*;
use crate::made::section;

/// Numbers that are past the count of any list, some of them small in their low bits.
const FAR: [u64; 6] = [5000, 1 << 16, 1 << 32, (1 << 32) + 1, 1 << 63, u64::MAX];

/// A section with this command (hex), no descriptors and its length written out.
fn with_command(kind: &str, body: &str) -> Vec<u8> {
    let length = byte_count(body);
    section(length as u16, &format!("{kind} {body} 0000"))
}

/// A section with this command and these descriptors, each given by tag, identifier and body.
fn with_both(kind: &str, command: &str, descriptors: &[(u8, &str, &str)]) -> Vec<u8> {
    let whole = |(tag, identifier, body): &(u8, &str, &str)| {
        let length = 4 + byte_count(body);
        format!("{tag:02x} {length:02x} {identifier} {body} ")
    };
    let descriptors: String = descriptors.iter().map(whole).collect();
    let loop_length = byte_count(&descriptors);
    let inside = format!("{kind} {command} {loop_length:04x} {descriptors}");
    section(byte_count(command) as u16, &inside)
}

/// A splice_null() section with known descriptors, each given by tag and body.
fn with_known(descriptors: &[(u8, &str)]) -> Vec<u8> {
    let known: Vec<_> = descriptors
        .iter()
        .map(|(tag, body)| (*tag, "43554549", *body))
        .collect();
    with_both("00", "", &known)
}

fn byte_count(hex: &str) -> usize {
    hex.replace(' ', "").len() / 2
}

/// A sealed section whose inside looks like a time_signal() with a segmentation descriptor.
fn sealed() -> Vec<u8> {
    let inside = "06 7F 0011 020F 43554549 00000001 7F BF 00 00 10 01 01 00000000";
    let mut bytes = section(1, inside);
    bytes.truncate(bytes.len() - 4);
    bytes[4] |= 0x80;
    crate::made::finished(bytes)
}

/// The flat list of an answer.
fn flat(answer: Result<impl Reading, u8>) -> Result<Vec<u64>, u8> {
    answer.map(|answer| numbers(&answer))
}

/// Asked by number, the question gives these lists, and NOTHERE two past them and far away.
fn lists<T: Reading>(ask: impl Fn(u64) -> Result<T, u8>, expected: &[&[u64]]) {
    for (number, expected) in expected.iter().enumerate() {
        let answer = flat(ask(number as u64));
        assert_eq!(answer.as_deref(), Ok(*expected), "number {number}");
    }
    let end = expected.len() as u64;
    for number in [end, end + 1, end + 2].into_iter().chain(FAR) {
        assert_eq!(flat(ask(number)), Err(NOTHERE), "number {number}");
    }
}

/// The section has no list at this question.
fn no_list<T: Reading>(ask: impl Fn(u64) -> Result<T, u8>) {
    lists(ask, &[]);
}
