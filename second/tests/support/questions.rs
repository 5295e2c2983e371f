//! The typed questions: how each of the two programs is asked them.

use crate::proved::readings as proved;
use second::hex::to_hex;
use second::reading::{entries, Entry, Reading};
use second::section::{Apart, Body, Segmentation};

/// The entries of an answer, or the number of the refusal.
pub type Listed = Result<Vec<Entry>, u8>;

pub struct Question {
    /// The function's name in the archive, behind `timpanimist_`.
    pub function: &'static str,
    /// The second program's word for it.
    word: &'static str,
    /// The name of the answer in README.md.
    pub answer: &'static str,
    /// How many numbers say what is asked for.
    pub numbers: usize,
    /// Asked of a section that was taken apart once, whatever else is asked of it.
    pub second: fn(&Apart, &[u64]) -> Listed,
    pub proved: fn(&mut [u8], &[usize], &mut [u64]) -> u64,
}

impl Question {
    /// The question as a command; the room is told behind it.
    pub fn pasted(&self, section: &[u8], at: &[usize], room: usize) -> String {
        let numbers: String = at.iter().map(|number| format!(" {number}")).collect();
        let section = to_hex(section);
        format!(
            "second numbers {} '{section}'{numbers} # room {room}",
            self.word
        )
    }
}

pub static COMMAND: Question = Question {
    function: "command",
    word: "command",
    answer: "command",
    numbers: 0,
    second: |section, _| listed(section.command()),
    proved: |section, _, out| proved::command(section, out),
};

pub static INSERT_COMPONENT: Question = Question {
    function: "insert_component",
    word: "insert-component",
    answer: "insert component",
    numbers: 1,
    second: |section, at| listed(section.insert_component(at[0])),
    proved: |section, at, out| proved::insert_component(section, at[0], out),
};

pub static SCHEDULE_EVENT: Question = Question {
    function: "schedule_event",
    word: "event",
    answer: "event",
    numbers: 1,
    second: |section, at| listed(section.event(at[0])),
    proved: |section, at, out| proved::schedule_event(section, at[0], out),
};

pub static EVENT_COMPONENT: Question = Question {
    function: "event_component",
    word: "event-component",
    answer: "event component",
    numbers: 2,
    second: |section, at| listed(section.event_component(at[0], at[1])),
    proved: |section, at, out| proved::event_component(section, at[0], at[1], out),
};

pub static PRIVATE_BYTE: Question = Question {
    function: "private_byte",
    word: "private-byte",
    answer: "private byte",
    numbers: 1,
    second: |section, at| listed(section.private_byte(at[0])),
    proved: |section, at, out| proved::private_byte(section, at[0], out),
};

pub static KNOWN_COUNT: Question = Question {
    function: "known_count",
    word: "descriptors",
    answer: "descriptor count",
    numbers: 0,
    second: |section, _| listed(section.descriptor_count()),
    proved: |section, _, out| proved::known_count(section, out),
};

pub static KNOWN_DESCRIPTOR: Question = Question {
    function: "known_descriptor",
    word: "descriptor",
    answer: "descriptor",
    numbers: 1,
    second: |section, at| listed(section.descriptor(at[0])),
    proved: |section, at, out| proved::known_descriptor(section, at[0], out),
};

pub static DTMF_CHAR: Question = Question {
    function: "dtmf_char",
    word: "dtmf-char",
    answer: "DTMF character",
    numbers: 2,
    second: |section, at| listed(section.dtmf_char(at[0], at[1])),
    proved: |section, at, out| proved::dtmf_char(section, at[0], at[1], out),
};

pub static SEGMENTATION_COMPONENT: Question = Question {
    function: "segmentation_component",
    word: "segmentation-component",
    answer: "segmentation component",
    numbers: 2,
    second: |section, at| listed(section.segmentation_component(at[0], at[1])),
    proved: |section, at, out| proved::segmentation_component(section, at[0], at[1], out),
};

pub static AUDIO_COMPONENT: Question = Question {
    function: "audio_component",
    word: "audio-component",
    answer: "audio component",
    numbers: 2,
    second: |section, at| listed(section.audio_component(at[0], at[1])),
    proved: |section, at, out| proved::audio_component(section, at[0], at[1], out),
};

pub static UPID: Question = Question {
    function: "upid",
    word: "upid",
    answer: "UPID",
    numbers: 1,
    second: |section, at| upid(section, at[0]),
    proved: |section, at, out| proved::upid(section, at[0], out),
};

pub static QUESTIONS: [&Question; 11] = [
    &COMMAND,
    &INSERT_COMPONENT,
    &SCHEDULE_EVENT,
    &EVENT_COMPONENT,
    &PRIVATE_BYTE,
    &KNOWN_COUNT,
    &KNOWN_DESCRIPTOR,
    &DTMF_CHAR,
    &SEGMENTATION_COMPONENT,
    &AUDIO_COMPONENT,
    &UPID,
];

fn listed(answer: Result<impl Reading, u8>) -> Listed {
    answer.map(|answer| entries(&answer))
}

/// The section's bytes at the place that is answered are those that were read as the field.
fn upid(section: &Apart, n: u64) -> Listed {
    let upid = section.upid(n)?;
    let there = &section.bytes[upid.offset..upid.offset + upid.bytes.len()];
    assert_eq!(there, segmentation_upid(section, n as usize));
    listed(Ok(upid))
}

/// The field of known descriptor `n`.
fn segmentation_upid<'a>(section: &'a Apart, n: usize) -> &'a [u8] {
    let clear = section.clear();
    let clear = clear.expect("a section with a UPID is accepted and not sealed");
    let bodies = clear.descriptors.iter().map(|descriptor| &descriptor.body);
    let mut known = bodies.filter(|body| !matches!(body, Body::Unknown(_)));
    match known.nth(n) {
        Some(Body::Segmentation(Segmentation {
            segment: Some(segment),
            ..
        })) => &segment.segmentation_upid,
        other => panic!("no UPID is in {other:?}"),
    }
}
