//! Built sections of every kind, short and long.

use crate::support::built::{
    any_section, middling_section, sealed, section_with_length, Command, Descriptor, Size,
};
use crate::support::Bench;

pub fn short(bench: &mut Bench) {
    for _ in 0..4_000 {
        let built = any_section(&mut bench.random, Size::Short);
        bench.ask_everything(&built.bytes);
    }
}

pub fn long(bench: &mut Bench) {
    for _ in 0..30 {
        let built = middling_section(&mut bench.random);
        bench.ask_everything(&built.bytes);
    }
    for _ in 0..150 {
        let built = any_section(&mut bench.random, Size::Long);
        bench.ask_everything(&built.bytes);
    }
}

/// With and without stuffing, the command's length written out and, where it ends by itself, left
/// open; two descriptors of unknown kinds stand around a third.
pub fn every_command_with_every_descriptor(bench: &mut Bench) {
    for at in 0..7 {
        for _ in 0..8 {
            for command in Command::every(&mut bench.random, Size::Short) {
                for open in [false, command.ends_by_itself] {
                    let random = &mut bench.random;
                    let list = vec![
                        Descriptor::foreign(random, Size::Short),
                        Descriptor::every(random, Size::Short)[at].clone(),
                        Descriptor::with_another_tag(random, Size::Short),
                    ];
                    let stuffing = random.within(0..=3);
                    let stuffing = random.bytes(stuffing);
                    let command = command.clone();
                    let built = section_with_length(random, command, open, list, &stuffing);
                    bench.ask_everything(&built.bytes);
                }
            }
        }
    }
}

pub fn of_sealed_bytes(bench: &mut Bench) {
    for count in 7..=300 {
        let built = sealed(&mut bench.random, count);
        bench.ask_everything(&built.bytes);
    }
}
