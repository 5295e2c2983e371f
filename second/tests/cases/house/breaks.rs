//! What opens a break, what measures it and how long the DASH event lasts: every type, durations at
//! their edges, durations in every place, and descriptors that are cancelled or only look like one.

use crate::support::built::{
    section, Command, Descriptor, Segmentation, Size, Writer, OPENING_TYPES,
};
use crate::support::house::{BREAK, DASH_DURATION};
use crate::support::Bench;
use second::section::Apart;

/// Durations around the edges of 32, 33 and 40 bits.
const TICKS: [u64; 10] = [
    0,
    1,
    89,
    (1 << 32) - 1,
    1 << 32,
    (1 << 33) - 1,
    1 << 33,
    (1 << 33) + 5,
    1 << 39,
    (1 << 40) - 1,
];

pub fn all(bench: &mut Bench) {
    for _ in 0..4 {
        every_type(bench);
        beside_every_type(bench);
        longest_of_three(bench);
    }
    under_other_commands(bench);
    inserts(bench);
}

/// A segment of this type, with this duration or none.
fn segment(bench: &mut Bench, type_id: u8, duration: Option<u64>) -> Writer {
    let random = &mut bench.random;
    let mut body = Writer::default();
    body.put(32, random.field(32));
    body.put(8, random.field(7));
    body.put(1, 1);
    body.put(1, u64::from(duration.is_some()));
    body.put(6, random.field(6));
    if let Some(ticks) = duration {
        body.put(40, ticks);
    }
    // No UPID.
    body.put(16, 0);
    body.put(8, u64::from(type_id));
    body.put(16, random.field(16));
    body
}

fn known(bench: &mut Bench, type_id: u8, duration: Option<u64>) -> Writer {
    Descriptor::known(2, segment(bench, type_id, duration))
}

/// A time signal with these descriptors has these numbers for its break and for its DASH duration.
fn signal(bench: &mut Bench, list: Vec<Writer>, opened: &[u64], lasts: &[u64]) {
    let random = &mut bench.random;
    let command = Command::time_signal(random);
    let built = section(random, command, list, &[]);
    bench.ask_house(&built.bytes);
    let section = Apart::of(&built.bytes);
    let answer = bench.house_answer(&BREAK, &section);
    assert_eq!(answer, Ok(opened.to_vec()));
    let answer = bench.house_answer(&DASH_DURATION, &section);
    assert_eq!(answer, Ok(lasts.to_vec()));
}

/// Alone, with a duration and without, and where it is unknown or cancelled.
fn every_type(bench: &mut Bench) {
    for type_id in 0..=255 {
        let opens = OPENING_TYPES.contains(&type_id);
        let ticks = bench.random.one_of(&TICKS);
        let timed = known(bench, type_id, Some(ticks));
        let opened = if opens { vec![1, ticks] } else { vec![0] };
        signal(bench, vec![timed], &opened, &[1, ticks]);
        let untimed = known(bench, type_id, None);
        let opened = if opens { [2] } else { [0] };
        signal(bench, vec![untimed], &opened, &[0]);
        let body = segment(bench, type_id, Some(ticks));
        let foreign = Descriptor::whole(2, 0x4355_4548, body.clone());
        signal(bench, vec![foreign], &[0], &[0]);
        let another_tag = Descriptor::whole(5, 0x4355_4549, body);
        signal(bench, vec![another_tag], &[0], &[0]);
    }
}

/// One that opens a break, before and behind one of each type that opens none.
fn beside_every_type(bench: &mut Bench) {
    for type_id in 0..=255 {
        if OPENING_TYPES.contains(&type_id) {
            continue;
        }
        let duration = bench.random.one_of(&durations());
        let ticks = bench.random.one_of(&TICKS);
        let opening = bench.random.one_of(&OPENING_TYPES);
        let mut list = vec![
            known(bench, opening, duration),
            known(bench, type_id, Some(ticks)),
        ];
        let opened = duration.map_or(vec![2], |ticks| vec![1, ticks]);
        let lasts = [1, ticks.max(duration.unwrap_or(0))];
        signal(bench, list.clone(), &opened, &lasts);
        list.reverse();
        signal(bench, list, &opened, &lasts);
    }
}

/// Three of which any may open a break: the longest of those that do measures it, the longest of all
/// three is the DASH event's.
fn longest_of_three(bench: &mut Bench) {
    for openers in 0..8 {
        for first in durations() {
            for second in durations() {
                let third = bench.random.one_of(&durations());
                three(bench, openers, [first, second, third]);
            }
        }
    }
}

/// Bit n of `openers` says whether the one at n opens a break.
fn three(bench: &mut Bench, openers: u8, all: [Option<u64>; 3]) {
    let opens = |at: usize| openers >> at & 1 == 1;
    let mut list = Vec::new();
    for (at, duration) in all.into_iter().enumerate() {
        let opening = bench.random.one_of(&OPENING_TYPES);
        let other = bench.random.one_of(&[0x10, 0x11, 0x35]);
        let type_id = if opens(at) { opening } else { other };
        list.push(known(bench, type_id, duration));
        if bench.random.once_in(3) {
            list.push(longer_that_counts_for_nothing(bench));
        }
    }
    let measuring = (0..3).filter(|at| opens(*at)).filter_map(|at| all[at]);
    let opened = match measuring.max() {
        _ if openers == 0 => vec![0],
        Some(ticks) => vec![1, ticks],
        None => vec![2],
    };
    let longest = all.into_iter().flatten().max();
    let lasts = longest.map_or(vec![0], |ticks| vec![1, ticks]);
    signal(bench, list, &opened, &lasts);
}

fn durations() -> Vec<Option<u64>> {
    let some = [0, 7, 1 << 32, 1 << 33, (1 << 40) - 1].map(Some);
    [[None].as_slice(), &some].concat()
}

/// Cancelled, or unknown with the longest duration that there is.
fn longer_that_counts_for_nothing(bench: &mut Bench) -> Writer {
    let random = &mut bench.random;
    if random.once_in(3) {
        let mut chosen = Segmentation::any(random, Size::Short);
        chosen.cancelled = true;
        return chosen.descriptor(random);
    }
    let tag = if random.once_in(2) { 2 } else { 9 };
    let identifier = if tag == 2 { 0x4355_4541 } else { 0x4355_4549 };
    let body = segment(bench, 0x34, Some((1 << 40) - 1));
    Descriptor::whole(tag, identifier, body)
}

/// A descriptor that would open a break, behind every command.
fn under_other_commands(bench: &mut Bench) {
    for _ in 0..100 {
        for command in Command::every(&mut bench.random, Size::Short) {
            let ticks = bench.random.one_of(&TICKS);
            let list = vec![known(bench, 0x34, Some(ticks))];
            let built = section(&mut bench.random, command, list, &[]);
            bench.ask_house(&built.bytes);
        }
    }
}

/// Inserts of every form; half of them go out of the network, half have a duration.
fn inserts(bench: &mut Bench) {
    for _ in 0..400 {
        let random = &mut bench.random;
        let mut commands = vec![Command::cancelled_insert(random)];
        for immediate in [false, true] {
            for components in [None, Some(0), Some(2)] {
                let command = Command::uncancelled_insert(random, components, immediate);
                commands.push(command);
            }
        }
        for command in commands {
            let ticks = bench.random.one_of(&TICKS);
            let mut list = vec![];
            if bench.random.once_in(2) {
                list.push(known(bench, 0x34, Some(ticks)));
            }
            let built = section(&mut bench.random, command, list, &[]);
            bench.ask_house(&built.bytes);
        }
    }
}
