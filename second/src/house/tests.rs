//! Facts about the house answers, and the small tools that they share.

mod breaks;
mod dash_durations;
mod dvbs;
mod labels;
mod samples;
mod times;

use super::*;
use crate::made::{finished, section};
use crate::reading::{numbers, Reading};
use crate::refusal::{COMMAND, CRC, DESCRIPTOR, LOOP, SEALED, SHORT, TABLE};

const CUEI: &str = "43554549";

fn byte_count(hex: &str) -> usize {
    hex.replace(' ', "").len() / 2
}

/// A descriptor, whole (hex).
fn descriptor(tag: u8, identifier: &str, body: &str) -> String {
    let length = 4 + byte_count(body);
    format!("{tag:02x} {length:02x} {identifier} {body} ")
}

/// A known segmentation descriptor, whole.
fn known(body: &str) -> String {
    descriptor(2, CUEI, body)
}

/// The body of a segment of this type: its duration, if it has one, and its UPID (hex).
fn segment(type_id: u8, duration: Option<u64>, upid: &str) -> String {
    let flags = if duration.is_some() { "FF" } else { "BF" };
    let duration = duration.map_or(String::new(), |ticks| format!("{ticks:010x}"));
    let upid_length = byte_count(upid);
    format!("00000007 7F {flags} {duration} 09 {upid_length:02x} {upid} {type_id:02x} 01 01")
}

/// The body of a segmentation descriptor that is cancelled.
const CANCELLED: &str = "00000007 FF";

/// A section with this command and these descriptors (hex).
fn with(kind: u8, command: &str, descriptors: &[String]) -> Vec<u8> {
    let descriptors = descriptors.concat();
    let loop_length = byte_count(&descriptors);
    let inside = format!("{kind:02x} {command} {loop_length:04x} {descriptors}");
    section(byte_count(command) as u16, &inside)
}

/// A time signal without a time, and these descriptors.
fn signal(descriptors: &[String]) -> Vec<u8> {
    with(0x06, "7F", descriptors)
}

/// The section, sealed: what stood in it is not to be read any more.
fn sealed(section: &[u8]) -> Vec<u8> {
    let mut bytes = section[..section.len() - 4].to_vec();
    bytes[4] |= 0x80;
    bytes.extend([0; 4]);
    finished(bytes)
}

/// The flat list of an answer.
fn flat(answer: Result<impl Reading, u8>) -> Result<Vec<u64>, u8> {
    answer.map(|answer| numbers(&answer))
}

/// Sections that rows 1 to 10 refuse, with the row.
fn refused_sections() -> Vec<(Vec<u8>, u8)> {
    let good = signal(&[known(&segment(0x34, Some(9), "AB"))]);
    let mut another_table = good.clone();
    another_table[0] = 0xFD;
    let mut wrong_crc = good.clone();
    wrong_crc[20] ^= 1;
    vec![
        (vec![], SHORT),
        (good[..19].to_vec(), SHORT),
        (another_table, TABLE),
        (wrong_crc, CRC),
        (section(1, "00 0000"), COMMAND),
        (section(1, "06 7F 0001"), LOOP),
        // The first descriptor reads well, the second does not.
        (
            signal(&[
                known(&segment(0x34, Some(9), "AB")),
                "00 04 43554549".into(),
            ]),
            DESCRIPTOR,
        ),
    ]
}
