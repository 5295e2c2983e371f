//! Built sections of every kind, short and long.

use crate::support::built::{
    any_section, cue, middling_section, sealed, section, Command, Descriptor, Size,
};
use crate::support::Bench;

pub fn all(bench: &mut Bench) {
    for _ in 0..20_000 {
        let built = any_section(&mut bench.random, Size::Short);
        bench.ask_house(&built.bytes);
        let built = cue(&mut bench.random);
        bench.ask_house(&built.bytes);
    }
    for _ in 0..100 {
        let built = middling_section(&mut bench.random);
        bench.ask_house(&built.bytes);
        let built = any_section(&mut bench.random, Size::Long);
        bench.ask_house(&built.bytes);
    }
    for count in 7..=300 {
        let built = sealed(&mut bench.random, count);
        bench.ask_house(&built.bytes);
    }
    every_type(bench);
}

/// Every type of command, with descriptors behind it, its bytes as they come: those that 002 defines
/// are mostly refused, all others are unknown.
fn every_type(bench: &mut Bench) {
    for kind in 0..=255 {
        for count in [0, 1, 5] {
            let random = &mut bench.random;
            let mut command = Command::unknown(random, Size::Short);
            command.kind = kind;
            command.part = Default::default();
            command.part.bytes(&random.bytes(count));
            let list = vec![
                Descriptor::any(random, Size::Short),
                Descriptor::any(random, Size::Short),
            ];
            let built = section(random, command, list, &[]);
            bench.ask_house(&built.bytes);
        }
    }
}
