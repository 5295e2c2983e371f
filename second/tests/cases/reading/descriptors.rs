//! Known descriptors in every form, among others of which some are unknown.

use crate::support::built::{
    section, Command, Descriptor, Segmentation, Size, Writer, SUB_SEGMENT_TYPES,
};
use crate::support::Bench;

pub fn all(bench: &mut Bench) {
    for _ in 0..8 {
        segmentations(bench);
        small_lists(bench);
    }
    upids(bench);
    every_type(bench);
    many(bench);
}

/// Every question about the descriptor, among two unknown ones and any other.
fn ask(bench: &mut Bench, descriptor: Writer) {
    let random = &mut bench.random;
    let command = Command::any(random, Size::Short);
    let list = vec![
        Descriptor::foreign(random, Size::Short),
        descriptor,
        Descriptor::with_another_tag(random, Size::Short),
        Descriptor::any(random, Size::Short),
    ];
    let built = section(random, command, list, &[]);
    bench.ask_everything(&built.bytes);
}

fn ask_segmentation(bench: &mut Bench, chosen: &Segmentation) {
    let descriptor = chosen.descriptor(&mut bench.random);
    ask(bench, descriptor);
}

/// With and without components, duration, sub-segments and a UPID, and cancelled.
fn segmentations(bench: &mut Bench) {
    for components in [None, Some(0), Some(1), Some(3)] {
        for timed in [false, true] {
            for behind in [0, 2] {
                for upid in [0, 1, 8] {
                    for cancelled in [false, false, false, true] {
                        let chosen = Segmentation {
                            cancelled,
                            components,
                            duration: timed.then(|| bench.random.field(40)),
                            upid,
                            type_id: bench.random.one_of(&SUB_SEGMENT_TYPES),
                            behind,
                        };
                        ask_segmentation(bench, &chosen);
                    }
                }
            }
        }
    }
}

/// UPIDs of every length, up to the longest that a descriptor has room for.
fn upids(bench: &mut Bench) {
    for components in [None, Some(2), Some(38)] {
        let mut chosen = Segmentation::any(&mut bench.random, Size::Short);
        (chosen.cancelled, chosen.components) = (false, components);
        for upid in 0..=chosen.most_upid() {
            chosen.upid = upid;
            ask_segmentation(bench, &chosen);
        }
    }
}

/// Every segmentation type, with the two bytes of sub-segments where it may have them.
fn every_type(bench: &mut Bench) {
    for type_id in 0..=255 {
        let mut chosen = Segmentation::any(&mut bench.random, Size::Short);
        (chosen.cancelled, chosen.type_id, chosen.behind) = (false, type_id, 0);
        ask_segmentation(bench, &chosen);
        if SUB_SEGMENT_TYPES.contains(&type_id) {
            chosen.behind = 2;
            ask_segmentation(bench, &chosen);
        }
    }
}

/// DTMF characters and audio components, as many as their counts can say.
fn small_lists(bench: &mut Bench) {
    for count in 0..=7 {
        let descriptor = Descriptor::dtmf(&mut bench.random, count);
        ask(bench, descriptor);
    }
    for count in 0..=15 {
        let descriptor = Descriptor::audio(&mut bench.random, count);
        ask(bench, descriptor);
    }
}

/// Many descriptors of every kind, known and unknown in turn.
fn many(bench: &mut Bench) {
    for _ in 0..20 {
        let random = &mut bench.random;
        let lists = [(); 4].map(|_| Descriptor::every(random, Size::Short));
        let built = section(random, Command::null(), lists.concat(), &[]);
        bench.ask_everything(&built.bytes);
    }
}
