//! Sections of 4,096 bytes, filled in every way, and lists behind many descriptors.

use crate::support::built::{
    any_section, filled_section, grown, longest_section, sealed, section, Command, Descriptor,
    Event, Segmentation, Size, Writer, LONGEST,
};
use crate::support::questions::{
    AUDIO_COMPONENT, DTMF_CHAR, KNOWN_DESCRIPTOR, SEGMENTATION_COMPONENT, UPID,
};
use crate::support::Bench;
use second::section::Apart;

/// The bytes of a section that are no command, descriptors or stuffing.
const FRAME: usize = 13 + 1 + 2 + 4;

pub fn all(bench: &mut Bench) {
    for _ in 0..3 {
        let built = filled_section(&mut bench.random);
        bench.ask_everything(&built.bytes);
        let built = longest_section(&mut bench.random);
        bench.ask_everything(&built.bytes);
    }
    for _ in 0..15 {
        let built = filled_section(&mut bench.random);
        ask(bench, &built.bytes);
        let built = longest_section(&mut bench.random);
        ask(bench, &built.bytes);
        let built = any_section(&mut bench.random, Size::Short);
        let more = bench.random.bytes(LONGEST - built.bytes.len());
        ask(bench, &grown(&built.bytes, &more));
    }
    let built = sealed(&mut bench.random, LONGEST - 17);
    ask(bench, &built.bytes);
    one_command(bench);
    many_descriptors(bench);
    lists_behind_many(bench);
}

fn ask(bench: &mut Bench, section: &[u8]) {
    assert_eq!(section.len(), LONGEST);
    bench.ask_everything(section);
}

/// A private command that fills the section, and a schedule of as many events as it can have.
fn one_command(bench: &mut Bench) {
    let random = &mut bench.random;
    let command = Command::private_of(random, LONGEST - FRAME - 4);
    let built = section(random, command, vec![], &[]);
    assert_eq!(built.bytes.len(), LONGEST);
    bench.ask_everything(&built.bytes);
    let random = &mut bench.random;
    let events = (0..255).map(|_| Event::Cancelled.part(random)).collect();
    let stuffing = random.bytes(LONGEST - FRAME - (1 + 255 * 5));
    let built = section(random, Command::schedule_of(events), vec![], &stuffing);
    ask(bench, &built.bytes);
}

/// As many known descriptors as fit, more than a byte can count.
fn many_descriptors(bench: &mut Bench) {
    let random = &mut bench.random;
    let avail = (0..407).map(|_| Descriptor::avail(random)).collect();
    let audio = (0..582).map(|_| Descriptor::audio(random, 0)).collect();
    for (list, stuffing) in [(avail, 6), (audio, 2)] {
        let count = Vec::len(&list);
        let stuffing = bench.random.bytes(stuffing);
        let built = section(&mut bench.random, Command::null(), list, &stuffing);
        ask(bench, &built.bytes);
        let section = Apart::of(&built.bytes);
        for n in 0..count {
            assert!(bench.ask(&KNOWN_DESCRIPTOR, &section, &[n]));
        }
    }
}

/// Lists and a UPID behind more descriptors than a byte can count.
fn lists_behind_many(bench: &mut Bench) {
    let random = &mut bench.random;
    let segmentation = Segmentation {
        cancelled: false,
        components: Some(2),
        duration: Some(random.field(40)),
        upid: 8,
        type_id: 0x34,
        behind: 2,
    };
    let mut list: Vec<Writer> = (0..300).map(|_| Descriptor::audio(random, 0)).collect();
    list.push(Descriptor::dtmf(random, 2));
    list.push(segmentation.descriptor(random));
    list.push(Descriptor::audio(random, 2));
    let built = section(random, Command::null(), list, &[]);
    let section = Apart::of(&built.bytes);
    let mut there = 0;
    for n in 299..=304 {
        there += usize::from(bench.ask(&UPID, &section, &[n]));
        for question in [&DTMF_CHAR, &SEGMENTATION_COMPONENT, &AUDIO_COMPONENT] {
            for m in 0..=3 {
                there += usize::from(bench.ask(question, &section, &[n, m]));
            }
        }
    }
    assert_eq!(there, 1 + 2 + 2 + 2);
}
