//! Lists and byte strings of every length, and every segmentation type with bytes behind it.

use crate::support::built::{
    any_duration, section, Built, Command, Descriptor, Segmentation, Size, Writer,
    SUB_SEGMENT_TYPES,
};
use crate::support::{Bench, Random};
use second::refusal::DESCRIPTOR;

pub fn all(bench: &mut Bench) {
    upids(bench);
    types_with_bytes_behind(bench);
    small_lists(bench);
    unknown_descriptors(bench);
    every_command_type(bench);
}

/// A section of this descriptor between two others.
fn around(random: &mut Random, descriptor: Writer) -> Built {
    let command = Command::any(random, Size::Short);
    let before = Descriptor::any(random, Size::Short);
    let behind = Descriptor::any(random, Size::Short);
    section(random, command, vec![before, descriptor, behind], &[])
}

fn expect(bench: &mut Bench, descriptor: Writer, row: u8) {
    let built = around(&mut bench.random, descriptor);
    assert_eq!(bench.accept(&built.bytes), row);
}

fn upids(bench: &mut Bench) {
    for timed in [false, true] {
        for behind in [0, 2] {
            for components in [None, Some(0), Some(1), Some(20), Some(38)] {
                let mut chosen = Segmentation {
                    cancelled: false,
                    components,
                    duration: timed.then(|| bench.random.field(40)),
                    upid: 0,
                    type_id: 0x34,
                    behind,
                };
                for upid in 0..=chosen.most_upid() {
                    chosen.upid = upid;
                    let descriptor = chosen.descriptor(&mut bench.random);
                    expect(bench, descriptor, 0);
                }
            }
        }
    }
}

fn types_with_bytes_behind(bench: &mut Bench) {
    for type_id in 0..=255 {
        for behind in 0..=5 {
            for upid in [0, 8] {
                let chosen = Segmentation {
                    cancelled: false,
                    components: [None, Some(2)][bench.random.within(0..=1)],
                    duration: any_duration(&mut bench.random),
                    upid,
                    type_id,
                    behind,
                };
                let may = behind == 0 || behind == 2 && SUB_SEGMENT_TYPES.contains(&type_id);
                let descriptor = chosen.descriptor(&mut bench.random);
                expect(bench, descriptor, if may { 0 } else { DESCRIPTOR });
            }
        }
    }
}

fn small_lists(bench: &mut Bench) {
    for _ in 0..20 {
        for count in 0..=7 {
            let descriptor = Descriptor::dtmf(&mut bench.random, count);
            expect(bench, descriptor, 0);
        }
        for count in 0..=15 {
            let descriptor = Descriptor::audio(&mut bench.random, count);
            expect(bench, descriptor, 0);
        }
    }
}

/// Bodies of every length that no known descriptor could have, of other identifiers and tags.
fn unknown_descriptors(bench: &mut Bench) {
    for count in 0..=251 {
        let mut body = Writer::default();
        body.bytes(&bench.random.bytes(count));
        let tag = bench.random.within(0..=255) as u8;
        let foreign = Descriptor::whole(tag, 0x4355_4548, body.clone());
        expect(bench, foreign, 0);
        let tag = bench.random.within(5..=255) as u8;
        let other = Descriptor::known(tag, body);
        expect(bench, other, 0);
    }
    for tag in 0..=255 {
        let empty = Descriptor::known(tag, Writer::default());
        expect(bench, empty, if tag < 5 { DESCRIPTOR } else { 0 });
        let empty = Descriptor::whole(tag, 0, Writer::default());
        expect(bench, empty, 0);
    }
}

/// Every command type with few bytes, the length stated and left open.
fn every_command_type(bench: &mut Bench) {
    for kind in 0..=255 {
        for count in 0..=12 {
            for ends_by_itself in [false, true, true, true] {
                let mut part = Writer::default();
                part.bytes(&bench.random.bytes(count));
                let command = Command {
                    kind,
                    part,
                    ends_by_itself,
                };
                let built = section(&mut bench.random, command, vec![], &[0; 6]);
                bench.accept(&built.bytes);
            }
        }
    }
}
