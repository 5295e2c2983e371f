//! The bench's typed questions. Each is put in rooms of every kind, so that one question compares
//! the answer, the refusal for want of room, and all that must stay as it was. The second program
//! takes a section apart once for all that is asked of it; the proved one gets the bytes each time.

use super::questions::{
    Question, AUDIO_COMPONENT, COMMAND, DTMF_CHAR, EVENT_COMPONENT, INSERT_COMPONENT, KNOWN_COUNT,
    KNOWN_DESCRIPTOR, PRIVATE_BYTE, QUESTIONS, SCHEDULE_EVENT, SEGMENTATION_COMPONENT, UPID,
};
use super::rooms::{in_room, rooms};
use super::Bench;
use second::reading::Entry;
use second::refusal::ROOM;
use second::section::Apart;

/// More numbers than any answer has.
const PLENTY: usize = 24;

/// Numbers far past the end of every list.
const FAR: [usize; 3] = [1 << 32, 1 << 63, usize::MAX];

impl Bench {
    /// A question about the thing that these numbers say: what is answered where there is room
    /// enough.
    pub fn answer(
        &mut self,
        question: &Question,
        section: &Apart,
        at: &[usize],
    ) -> Result<Vec<u64>, u8> {
        let numbers: Vec<u64> = at.iter().map(|number| *number as u64).collect();
        let listed = (question.second)(section, &numbers);
        self.met.count(question, &listed);
        let answer = listed.map(|list| exported(&list));
        for room in rooms(&mut self.random, &answer, PLENTY) {
            let answer = in_room(&answer, room);
            let call = |section: &mut [u8], out: &mut [u64]| (question.proved)(section, at, out);
            let paste = || question.pasted(section.bytes, at, room);
            let function = question.function;
            self.same_written(function, section.bytes, room, &answer, call, paste);
            self.met.call(question, answer.err() == Some(ROOM));
        }
        answer
    }

    /// The same; says whether there was an answer.
    pub fn ask(&mut self, question: &Question, section: &Apart, at: &[usize]) -> bool {
        self.answer(question, section, at).is_ok()
    }

    /// Every question: with every number that is there, with those up to two past each count, and
    /// with some far away.
    pub fn ask_everything(&mut self, section: &[u8]) {
        let section = &Apart::of(section);
        self.ask(&COMMAND, section, &[]);
        self.ask_list(&INSERT_COMPONENT, section, &[]);
        self.ask_list(&PRIVATE_BYTE, section, &[]);
        let events = self.ask_list(&SCHEDULE_EVENT, section, &[]);
        self.ask_inside(&EVENT_COMPONENT, section, events);
        self.ask(&KNOWN_COUNT, section, &[]);
        let descriptors = self.ask_list(&KNOWN_DESCRIPTOR, section, &[]);
        for n in 0..descriptors {
            self.ask(&UPID, section, &[n]);
        }
        for n in self.past(descriptors) {
            self.ask(&UPID, section, &[n]);
        }
        self.ask_inside(&DTMF_CHAR, section, descriptors);
        self.ask_inside(&SEGMENTATION_COMPONENT, section, descriptors);
        self.ask_inside(&AUDIO_COMPONENT, section, descriptors);
    }

    /// A list, or the one inside the thing of this number, from its front until nothing is there,
    /// and past its end. Says how many things are there.
    fn ask_list(&mut self, question: &Question, section: &Apart, inside: &[usize]) -> usize {
        let mut count = 0;
        while self.ask(question, section, &[inside, &[count]].concat()) {
            count += 1;
        }
        // The first number past the end was asked for just now.
        for number in &self.past(count)[1..] {
            self.ask(question, section, &[inside, &[*number]].concat());
        }
        count
    }

    /// The lists inside each of so many things, and inside things that are not there.
    fn ask_inside(&mut self, question: &Question, section: &Apart, count: usize) {
        for n in 0..count {
            self.ask_list(question, section, &[n]);
        }
        for n in self.past(count) {
            let far = self.random.one_of(&FAR);
            for m in [0, 1, far] {
                self.ask(question, section, &[n, m]);
            }
        }
    }

    /// Each question once, with numbers of every size.
    pub fn ask_each(&mut self, section: &[u8]) {
        let section = &Apart::of(section);
        for question in QUESTIONS {
            let numbers = (0..question.numbers).map(|_| self.any_number());
            let at: Vec<usize> = numbers.collect();
            self.ask(question, section, &at);
        }
    }

    /// Numbers past a list of so many: the three next to it, those far away, and one that is right
    /// in its low bits only.
    fn past(&mut self, count: usize) -> [usize; 7] {
        let high = 1 << self.random.within(13..=63);
        let low = self.random.within(0..=count);
        let [a, b, c] = FAR;
        [count, count + 1, count + 2, a, b, c, high + low]
    }

    fn any_number(&mut self) -> usize {
        match self.random.within(0..=3) {
            0 => 0,
            1 => self.random.within(0..=3),
            2 => self.random.within(0..=600),
            _ => self.random.number_of_any_size() as usize,
        }
    }
}

/// The numbers that the archive writes: a case by its number, a field by its value. The bytes of a
/// UPID are not among them, since they stand in the section.
fn exported(list: &[Entry]) -> Vec<u64> {
    let numbers = list.iter().filter_map(|entry| match entry {
        Entry::Case(_, _, number) => Some(*number),
        Entry::Value(_, value) => Some(*value),
        Entry::Bytes(..) => None,
    });
    numbers.collect()
}
