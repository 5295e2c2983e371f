//! Commands with lists of many lengths: components of inserts, events and their components,
//! private bytes.

use crate::support::built::{section, Command, Descriptor, Event, Size};
use crate::support::Bench;

pub fn all(bench: &mut Bench) {
    inserts(bench);
    schedules(bench);
    private_commands(bench);
}

/// Every question about the command, with a descriptor behind it.
fn ask(bench: &mut Bench, command: Command) {
    let random = &mut bench.random;
    let list = vec![Descriptor::any(random, Size::Short)];
    let built = section(random, command, list, &[]);
    bench.ask_everything(&built.bytes);
}

fn inserts(bench: &mut Bench) {
    for _ in 0..150 {
        let command = Command::cancelled_insert(&mut bench.random);
        ask(bench, command);
        for immediate in [false, true] {
            for components in [None, None, None, Some(0), Some(1), Some(4)] {
                let random = &mut bench.random;
                let command = Command::uncancelled_insert(random, components, immediate);
                ask(bench, command);
            }
        }
    }
    for immediate in [false, true] {
        for count in [20, 100, 254, 255] {
            let random = &mut bench.random;
            let command = Command::uncancelled_insert(random, Some(count), immediate);
            ask(bench, command);
        }
    }
}

fn schedules(bench: &mut Bench) {
    let kinds = [Event::Cancelled, Event::Program, Event::Components(2)];
    for first in kinds {
        for second in kinds {
            for third in kinds {
                for _ in 0..4 {
                    schedule(bench, &[first, second, third]);
                }
            }
        }
    }
    for count in [0, 1, 3, 254, 255] {
        schedule(bench, &[Event::Cancelled, Event::Components(count)]);
    }
    schedule(bench, &[Event::Components(255); 3]);
    let mut most = [Event::Cancelled; 255];
    most[254] = Event::Components(2);
    schedule(bench, &most);
    schedule(bench, &[Event::Components(0); 100]);
}

fn schedule(bench: &mut Bench, events: &[Event]) {
    let random = &mut bench.random;
    let events = events.iter().map(|event| event.part(random)).collect();
    ask(bench, Command::schedule_of(events));
}

fn private_commands(bench: &mut Bench) {
    for count in (0..=20).chain([254, 255, 256, 257, 1000]) {
        let command = Command::private_of(&mut bench.random, count);
        ask(bench, command);
    }
}
