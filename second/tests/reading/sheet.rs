//! Every question put to a section, and each answer held against what its sheet tells.

use crate::random::Random;
use crate::told::{told, Told, ToldDescriptor};
use crate::{flat, Answer};
use second::refusal::{NOTHERE, SEALED};
use second::section::Apart;
use second::sheet::sheet_of;

/// Every answer of an accepted section is what its sheet tells, or SEALED.
pub fn same_answers(random: &mut Random, section: &[u8]) -> Option<Told> {
    let sheet = sheet_of(section).expect("an accepted section");
    let Some(told) = told(section.len(), &sheet) else {
        refused(random, section, SEALED);
        return None;
    };
    let section = &Apart::of(section);
    assert_eq!(flat(section.command()), Ok(told.command.clone()));
    same_command_lists(random, section, &told);
    let count = told.descriptors.len() as u64;
    assert_eq!(section.descriptor_count(), Ok(count));
    same_descriptors(random, section, &told);
    Some(told)
}

/// Every question is refused with this number, whatever is asked for.
pub fn refused(random: &mut Random, section: &[u8], expected: u8) {
    let section = Apart::of(section);
    let n = random.number_of_any_size() >> random.within(0..=63);
    let m = random.number_of_any_size() >> random.within(0..=63);
    let answers = [
        flat(section.command()),
        flat(section.insert_component(n)),
        flat(section.event(n)),
        flat(section.event_component(n, m)),
        flat(section.private_byte(n)),
        flat(section.descriptor_count()),
        flat(section.descriptor(n)),
        flat(section.dtmf_char(n, m)),
        flat(section.segmentation_component(n, m)),
        flat(section.audio_component(n, m)),
        flat(section.upid(n)),
    ];
    let all = answers.iter().all(|answer| *answer == Err(expected));
    assert!(all, "{expected}: {answers:?} for {n} and {m}");
}

/// Which numbers are asked for in a list of so many: all of a short one, the ends and some more of
/// a long one; always two past it, one far away, and one that is right in its low bits only.
fn numbers_to_ask(random: &mut Random, count: usize) -> Vec<u64> {
    let mut asked: Vec<usize> = (0..count).collect();
    if count > 8 {
        let inside = random.within(2..=count - 3);
        asked = vec![0, 1, inside, count - 2, count - 1];
    }
    asked.extend([count, count + 1, count + 2]);
    let mut asked: Vec<u64> = asked.into_iter().map(|number| number as u64).collect();
    asked.push(random.number_of_any_size().max(count as u64));
    // No list has 2^12 things.
    asked.push((1 << random.within(12..=63)) + random.within(0..=count) as u64);
    asked
}

/// Asked by number, the question gives the told lists, and NOTHERE past them.
fn same_lists(random: &mut Random, told: &[Vec<u64>], ask: impl Fn(u64) -> Answer) {
    for number in numbers_to_ask(random, told.len()) {
        let expected = told.get(number as usize).cloned().ok_or(NOTHERE);
        assert_eq!(ask(number), expected, "number {number}");
    }
}

fn same_command_lists(random: &mut Random, section: &Apart, told: &Told) {
    same_lists(random, &told.insert_components, |n| {
        flat(section.insert_component(n))
    });
    same_lists(random, &told.private_bytes, |n| {
        flat(section.private_byte(n))
    });
    let events: Vec<_> = told.events.iter().map(|event| event.list.clone()).collect();
    same_lists(random, &events, |n| flat(section.event(n)));
    for n in numbers_to_ask(random, events.len()) {
        let event = told.events.get(n as usize);
        let components = event.map_or(vec![], |event| event.components.clone());
        same_lists(random, &components, |m| flat(section.event_component(n, m)));
    }
}

fn same_descriptors(random: &mut Random, section: &Apart, told: &Told) {
    for n in numbers_to_ask(random, told.descriptors.len()) {
        let nothing = ToldDescriptor::default();
        let descriptor = told.descriptors.get(n as usize);
        let list = descriptor.map(|descriptor| descriptor.list.clone());
        assert_eq!(flat(section.descriptor(n)), list.ok_or(NOTHERE));
        let descriptor = descriptor.unwrap_or(&nothing);
        let upid = descriptor.upid.clone().ok_or(NOTHERE);
        assert_eq!(flat(section.upid(n)), upid);
        same_lists(random, &descriptor.dtmf_chars, |m| {
            flat(section.dtmf_char(n, m))
        });
        same_lists(random, &descriptor.segmentation_components, |m| {
            flat(section.segmentation_component(n, m))
        });
        same_lists(random, &descriptor.audio_components, |m| {
            flat(section.audio_component(n, m))
        });
    }
}
