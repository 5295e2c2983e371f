//! Random descriptors: the five known ones, and unknown ones of two sorts.

use super::segmentation::Segmentation;
use super::writer::Writer;
use super::{Random, Size};

const CUEI: u32 = 0x4355_4549;

/// Makes descriptors; each is whole, from its tag on.
pub struct Descriptor;

impl Descriptor {
    pub fn any(random: &mut Random, size: Size) -> Writer {
        match random.within(0..=11) {
            0 => Descriptor::avail(random),
            1 => {
                let count = random.within(0..=7);
                Descriptor::dtmf(random, count)
            }
            2..=6 => Segmentation::any(random, size).descriptor(random),
            7 => Descriptor::time(random),
            8 => {
                let most = if size == Size::Long { 15 } else { 2 };
                let count = random.within(0..=most);
                Descriptor::audio(random, count)
            }
            9 | 10 => Descriptor::foreign(random, size),
            _ => Descriptor::with_another_tag(random, size),
        }
    }

    /// One of each.
    pub fn every(random: &mut Random, size: Size) -> [Writer; 7] {
        let dtmf_count = random.within(0..=7);
        let audio_count = random.within(0..=15);
        [
            Descriptor::avail(random),
            Descriptor::dtmf(random, dtmf_count),
            Segmentation::any(random, size).descriptor(random),
            Descriptor::time(random),
            Descriptor::audio(random, audio_count),
            Descriptor::foreign(random, size),
            Descriptor::with_another_tag(random, size),
        ]
    }

    pub fn avail(random: &mut Random) -> Writer {
        let mut body = Writer::default();
        body.put(32, random.field(32));
        Descriptor::known(0, body)
    }

    pub fn dtmf(random: &mut Random, count: usize) -> Writer {
        let mut body = Writer::default();
        body.put(8, random.field(8));
        body.marked("dtmf_count", 3, count as u64);
        body.put(5, random.field(5));
        body.bytes(&random.bytes(count));
        Descriptor::known(1, body)
    }

    pub fn time(random: &mut Random) -> Writer {
        let mut body = Writer::default();
        body.put(48, random.field(48));
        body.put(32, random.field(32));
        body.put(16, random.field(16));
        Descriptor::known(3, body)
    }

    pub fn audio(random: &mut Random, count: usize) -> Writer {
        let mut body = Writer::default();
        body.marked("audio_count", 4, count as u64);
        body.put(4, random.field(4));
        for _ in 0..count {
            body.put(8, random.field(8));
            body.put(24, random.field(24));
            body.put(8, random.field(8));
        }
        Descriptor::known(4, body)
    }

    /// Another identifier, often by one bit only, with any tag, mostly one of the known.
    pub fn foreign(random: &mut Random, size: Size) -> Writer {
        let mut identifier = CUEI ^ 1 << random.within(0..=31);
        if random.once_in(3) {
            identifier = random.number() as u32;
        }
        if identifier == CUEI {
            identifier = 0;
        }
        let mut tag = random.within(0..=4) as u8;
        if random.once_in(4) {
            tag = random.number() as u8;
        }
        let body = any_body(random, size);
        Descriptor::whole(tag, identifier, body)
    }

    /// The known identifier with a tag of 5 or more.
    pub fn with_another_tag(random: &mut Random, size: Size) -> Writer {
        let tag = random.within(5..=255) as u8;
        let body = any_body(random, size);
        Descriptor::whole(tag, CUEI, body)
    }

    /// An unknown one that holds what a segmentation descriptor of a cue does: its identifier or its
    /// tag is another.
    pub fn look_alike(random: &mut Random) -> Writer {
        let body = Segmentation::of_a_cue(random).body(random);
        if random.once_in(3) {
            let tag = random.within(5..=255) as u8;
            Descriptor::whole(tag, CUEI, body)
        } else {
            Descriptor::whole(2, CUEI ^ 1 << random.within(0..=31), body)
        }
    }

    /// An unknown one of any sort.
    pub fn unknown(random: &mut Random) -> Writer {
        let size = if random.once_in(10) {
            Size::Long
        } else {
            Size::Short
        };
        match random.within(0..=3) {
            0 => Descriptor::foreign(random, size),
            1 => Descriptor::with_another_tag(random, size),
            _ => Descriptor::look_alike(random),
        }
    }

    pub fn known(tag: u8, body: Writer) -> Writer {
        Descriptor::whole(tag, CUEI, body)
    }

    pub fn whole(tag: u8, identifier: u32, body: Writer) -> Writer {
        let mut whole = Writer::default();
        whole.put(8, u64::from(tag));
        whole.marked("descriptor_length", 8, body.count() as u64 + 4);
        whole.put(32, u64::from(identifier));
        whole.append(body);
        whole
    }
}

/// Any bytes, none of them a third of the time.
fn any_body(random: &mut Random, size: Size) -> Writer {
    let count = match random.within(0..=2) {
        0 => 0,
        1 => random.within(1..=12),
        _ => size.count(random).min(251),
    };
    let mut body = Writer::default();
    body.bytes(&random.bytes(count));
    body
}
