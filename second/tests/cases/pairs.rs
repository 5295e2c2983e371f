//! Pairs of sections that differ only in reserved bits, stuffing and unknown descriptors, and in the
//! lengths and the CRC with them: each program says the same of both. Of a UPID and of a label the
//! bytes are compared, and not where they lie.

use crate::proved::REFUSED;
use crate::support::built::{grown, partner, unsealed_section, Partner, CHANGES, LONGEST};
use crate::support::counts::Counts;
use crate::support::questions::{
    Question, AUDIO_COMPONENT, COMMAND, DTMF_CHAR, EVENT_COMPONENT, INSERT_COMPONENT, KNOWN_COUNT,
    KNOWN_DESCRIPTOR, PRIVATE_BYTE, SCHEDULE_EVENT, SEGMENTATION_COMPONENT, UPID,
};
use crate::support::{Bench, Random};
use second::hex::to_hex;
use second::reading::Entry;
use second::section::Apart;
use second::sheet::{related, sheet_of};

/// How many pairs are made.
const PAIRS: usize = 100_000;

/// How often each sort of change, and each case of a command, of a descriptor and of a house answer
/// is met at least.
const OFTEN: u64 = 1_000;

/// More numbers than any answer has.
const PLENTY: usize = 24;

/// The numbers of an answer, or the number of the refusal.
type Answer = Result<Vec<u64>, u8>;

/// The function that was asked, and its answer.
type Said = (&'static str, Answer);

#[test]
fn partners_have_the_same_answers() {
    let random = &mut Bench::new().random;
    let mut counts = Counts::default();
    for _ in 0..PAIRS {
        let mut section = any_unsealed(random);
        let mut other = partner(random, &section);
        assert_related(&section, &other.bytes);
        let said = said_by_second(&section);
        let same = [
            ("second", said_by_second(&other.bytes)),
            ("proved", said_by_proved(&mut section)),
            ("proved", said_by_proved(&mut other.bytes)),
        ];
        for (program, also_said) in same {
            assert_same(program, &said, &also_said, &section, &other);
        }
        count(&mut counts, &said, &other);
    }
    counts.reached(&expected(), OFTEN);
}

/// Once in a while it has 4,096 bytes, so that its partner has no room for more.
fn any_unsealed(random: &mut Random) -> Vec<u8> {
    let section = unsealed_section(random).bytes;
    if !random.once_in(2_000) {
        return section;
    }
    let more = random.bytes(LONGEST - section.len());
    grown(&section, &more)
}

fn assert_related(section: &[u8], other: &[u8]) {
    let (sheet, other_sheet) = (sheet_of(section).unwrap(), sheet_of(other).unwrap());
    assert!(related(&sheet, &other_sheet));
}

fn assert_same(program: &str, said: &[Said], also: &[Said], section: &[u8], other: &Partner) {
    if said != also {
        let differs = said.iter().zip(also).find(|(one, other)| one != other);
        let counts = (said.len(), also.len());
        panic!(
            "\nthe {program} program says another thing of one of a pair, {counts:?} answers: \
             {differs:?}\n  one: {}\n  other: {}\n",
            to_hex(section),
            to_hex(&other.bytes)
        );
    }
}

/// What the second program says of a section, which it takes apart once.
fn said_by_second(section: &[u8]) -> Vec<Said> {
    let section = &Apart::of(section);
    let mut said = everything(|question, at| second(question, section, at));
    said.extend(house::second(section));
    said
}

fn said_by_proved(section: &mut [u8]) -> Vec<Said> {
    let mut said = everything(|question, at| proved(question, section, at));
    said.extend(house::proved(section));
    said
}

/// Every question with every number that is there and the first past each count.
fn everything(mut ask: impl FnMut(&Question, &[usize]) -> Answer) -> Vec<Said> {
    let ask = &mut ask;
    let said = &mut Vec::new();
    one(said, ask, &COMMAND, &[]);
    list(said, ask, &INSERT_COMPONENT, &[]);
    list(said, ask, &PRIVATE_BYTE, &[]);
    for n in 0..list(said, ask, &SCHEDULE_EVENT, &[]) {
        list(said, ask, &EVENT_COMPONENT, &[n]);
    }
    one(said, ask, &KNOWN_COUNT, &[]);
    for n in 0..list(said, ask, &KNOWN_DESCRIPTOR, &[]) {
        one(said, ask, &UPID, &[n]);
        list(said, ask, &DTMF_CHAR, &[n]);
        list(said, ask, &SEGMENTATION_COMPONENT, &[n]);
        list(said, ask, &AUDIO_COMPONENT, &[n]);
    }
    std::mem::take(said)
}

/// Says whether there was an answer.
fn one(
    said: &mut Vec<Said>,
    ask: &mut impl FnMut(&Question, &[usize]) -> Answer,
    question: &Question,
    at: &[usize],
) -> bool {
    let answer = ask(question, at);
    let there = answer.is_ok();
    said.push((question.function, answer));
    there
}

/// A list, or the one inside the thing of this number, until nothing is there; says how much was.
fn list(
    said: &mut Vec<Said>,
    ask: &mut impl FnMut(&Question, &[usize]) -> Answer,
    question: &Question,
    inside: &[usize],
) -> usize {
    let mut count = 0;
    while one(said, ask, question, &[inside, &[count]].concat()) {
        count += 1;
    }
    count
}

fn second(question: &Question, section: &Apart, at: &[usize]) -> Answer {
    let at: Vec<u64> = at.iter().map(|number| *number as u64).collect();
    let list = (question.second)(section, &at)?;
    let numbers = list.iter().filter_map(|entry| match entry {
        Entry::Case(_, _, number) => Some(*number),
        Entry::Value(_, value) => Some(*value),
        Entry::Bytes(..) => None,
    });
    Ok(without_place(question, section.bytes, numbers.collect()))
}

fn proved(question: &Question, section: &mut [u8], at: &[usize]) -> Answer {
    let mut out = [0; PLENTY];
    let numbers = written((question.proved)(section, at, &mut out), &out)?;
    Ok(without_place(question, section, numbers))
}

/// What the archive wrote, or the number of the refusal.
fn written(count: u64, out: &[u64]) -> Answer {
    match count.checked_sub(REFUSED) {
        None => Ok(out[..count as usize].to_vec()),
        Some(refused) => Err(u8::try_from(refused).expect("the number of a refusal")),
    }
}

/// An answer as it is; of a UPID the bytes that lie where it says.
fn without_place(question: &Question, section: &[u8], numbers: Vec<u64>) -> Vec<u64> {
    match (question.function, numbers.as_slice()) {
        ("upid", [offset, length]) => part(section, *offset, *length),
        _ => numbers,
    }
}

fn part(bytes: &[u8], offset: u64, length: u64) -> Vec<u64> {
    let part = &bytes[offset as usize..][..length as usize];
    part.iter().map(|byte| u64::from(*byte)).collect()
}

/// The functions whose answers open with the number of a case, and how many cases there are.
const CASES: [(&str, u64); 6] = [
    ("command", 8),
    ("known_descriptor", 6),
    ("break", 4),
    ("dash_duration", 2),
    ("effective_time", 2),
    ("dvb", 2),
];

fn count(counts: &mut Counts, said: &[Said], other: &Partner) {
    for change in &other.changes {
        counts.count(format!("{change:?}"));
    }
    for (function, answer) in said {
        let has_cases = CASES.iter().any(|(name, _)| name == function);
        if let (true, Ok(numbers)) = (has_cases, answer) {
            counts.count(format!("{function} {}", numbers[0]));
        }
    }
}

fn expected() -> Vec<String> {
    let changes = CHANGES.iter().map(|change| format!("{change:?}"));
    let cases = CASES
        .iter()
        .flat_map(|(function, count)| (0..*count).map(move |case| format!("{function} {case}")));
    changes.chain(cases).collect()
}

/// The house answers, the label under one house name.
mod house {
    use super::{part, written, Answer, Said, PLENTY};
    use crate::proved::house as proved_house;
    use crate::support::house::{flat, HOUSE_QUESTIONS};
    use second::section::Apart;

    const HOUSE_NAME: &[u8] = b"a house name";

    pub fn second(section: &Apart) -> Vec<Said> {
        let label = section.bill_label(HOUSE_NAME);
        let bytes = part(label.bytes(), 0, label.bytes().len() as u64);
        let answers = HOUSE_QUESTIONS.iter().map(|question| {
            let listed = (question.second)(section);
            (question.function, listed.map(|list| flat(&list)))
        });
        answers.chain([("bill_label", Ok(bytes))]).collect()
    }

    pub fn proved(section: &mut [u8]) -> Vec<Said> {
        let mut out = [0; PLENTY];
        let mut answers = Vec::new();
        for question in HOUSE_QUESTIONS {
            let count = (question.proved)(section, &mut out);
            answers.push((question.function, written(count, &out)));
        }
        answers.push(("bill_label", label_bytes(section)));
        answers
    }

    fn label_bytes(section: &mut [u8]) -> Answer {
        let mut out = [0; PLENTY];
        let mut house_name = HOUSE_NAME.to_vec();
        let count = proved_house::bill_label(section, &mut house_name, &mut out);
        match written(count, &out)?.as_slice() {
            [0, offset, length] => Ok(part(section, *offset, *length)),
            [1, offset, length] => Ok(part(&house_name, *offset, *length)),
            other => panic!("bill_label writes {other:?}"),
        }
    }
}
