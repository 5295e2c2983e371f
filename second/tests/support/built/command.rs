//! Random splice commands of every kind.

use super::writer::Writer;
use super::{Random, Size};

/// The kinds that 002 defines; all others are unknown.
const DEFINED: [u8; 6] = [0x00, 0x04, 0x05, 0x06, 0x07, 0xFF];

/// The most bytes of a command made here.
const ROOM: usize = 4000;

#[derive(Clone)]
pub struct Command {
    pub kind: u8,
    pub part: Writer,
    /// Whether its length may be left open.
    pub ends_by_itself: bool,
}

impl Command {
    pub fn any(random: &mut Random, size: Size) -> Command {
        match random.within(0..=8) {
            0 => Command::null(),
            1 => Command::bandwidth_reservation(),
            2 | 3 => Command::time_signal(random),
            4 | 5 => Command::insert(random, size),
            6 => Command::schedule(random, size),
            7 => Command::private(random, size),
            _ => Command::unknown(random, size),
        }
    }

    /// One of each.
    pub fn every(random: &mut Random, size: Size) -> [Command; 7] {
        [
            Command::null(),
            Command::bandwidth_reservation(),
            Command::time_signal(random),
            Command::insert(random, size),
            Command::schedule(random, size),
            Command::private(random, size),
            Command::unknown(random, size),
        ]
    }

    pub fn null() -> Command {
        Command::that_ends_by_itself(0x00, Writer::default())
    }

    pub fn bandwidth_reservation() -> Command {
        Command::that_ends_by_itself(0x07, Writer::default())
    }

    pub fn time_signal(random: &mut Random) -> Command {
        let mut part = Writer::default();
        splice_time(random, &mut part);
        Command::that_ends_by_itself(0x06, part)
    }

    pub fn insert(random: &mut Random, size: Size) -> Command {
        if random.once_in(5) {
            return Command::cancelled_insert(random);
        }
        let program = random.once_in(2);
        let components = (!program).then(|| size.count(random));
        let immediate = random.once_in(2);
        Command::uncancelled_insert(random, components, immediate)
    }

    pub fn cancelled_insert(random: &mut Random) -> Command {
        let mut part = Writer::default();
        event_id(random, &mut part, true);
        Command::that_ends_by_itself(0x05, part)
    }

    /// An insert of so many components, or of the program.
    pub fn uncancelled_insert(
        random: &mut Random,
        components: Option<usize>,
        immediate: bool,
    ) -> Command {
        let mut part = Writer::default();
        event_id(random, &mut part, false);
        splicing(random, &mut part, components, immediate);
        Command::that_ends_by_itself(0x05, part)
    }

    /// A schedule of random events, as many of them as there is room for.
    pub fn schedule(random: &mut Random, size: Size) -> Command {
        let mut events = Vec::new();
        let mut room = ROOM;
        for _ in 0..size.count(random) {
            let chosen = Event::any(random, size);
            let event = chosen.part(random);
            if event.count() <= room {
                room -= event.count();
                events.push(event);
            }
        }
        Command::schedule_of(events)
    }

    pub fn schedule_of(events: Vec<Writer>) -> Command {
        let mut part = Writer::default();
        part.marked("splice_count", 8, events.len() as u64);
        for event in events {
            part.append(event);
        }
        Command::that_ends_by_itself(0x04, part)
    }

    pub fn private(random: &mut Random, size: Size) -> Command {
        let count = size.count(random);
        Command::private_of(random, count)
    }

    /// A private command with so many bytes behind its identifier.
    pub fn private_of(random: &mut Random, count: usize) -> Command {
        let mut part = Writer::default();
        part.put(32, random.field(32));
        part.bytes(&random.bytes(count));
        Command {
            kind: 0xFF,
            part,
            ends_by_itself: false,
        }
    }

    pub fn unknown(random: &mut Random, size: Size) -> Command {
        let mut kind = random.one_of(&[0x01, 0x02, 0x03, 0x08, 0xFE]);
        if random.once_in(2) {
            kind = random.number() as u8;
        }
        if DEFINED.contains(&kind) {
            kind = 0x55;
        }
        let mut part = Writer::default();
        let count = size.count(random);
        part.bytes(&random.bytes(count));
        Command {
            kind,
            part,
            ends_by_itself: false,
        }
    }

    fn that_ends_by_itself(kind: u8, part: Writer) -> Command {
        Command {
            kind,
            part,
            ends_by_itself: true,
        }
    }
}

/// An event of a schedule, by what it splices.
#[derive(Clone, Copy)]
pub enum Event {
    Cancelled,
    Program,
    Components(usize),
}

impl Event {
    pub fn any(random: &mut Random, size: Size) -> Event {
        if random.once_in(3) {
            Event::Cancelled
        } else if random.once_in(3) {
            Event::Components(size.count(random))
        } else {
            Event::Program
        }
    }

    pub fn part(self, random: &mut Random) -> Writer {
        let mut part = Writer::default();
        event_id(random, &mut part, matches!(self, Event::Cancelled));
        match self {
            Event::Cancelled => {}
            Event::Program => event_splicing(random, &mut part, None),
            Event::Components(count) => event_splicing(random, &mut part, Some(count)),
        }
        part
    }
}

/// splice_event_id, whether the event is cancelled, and the reserved bits behind it.
fn event_id(random: &mut Random, part: &mut Writer, cancelled: bool) {
    part.put(32, random.field(32));
    part.put(1, u64::from(cancelled));
    part.put(7, random.field(7));
}

/// What an insert holds that is not cancelled.
fn splicing(random: &mut Random, part: &mut Writer, components: Option<usize>, immediate: bool) {
    let program = components.is_none();
    let duration = random.once_in(2);
    part.put(1, random.field(1));
    part.put(1, u64::from(program));
    part.put(1, u64::from(duration));
    part.put(1, u64::from(immediate));
    part.put(4, random.field(4));
    if program && !immediate {
        splice_time(random, part);
    }
    if let Some(count) = components {
        part.marked("component_count", 8, count as u64);
        for _ in 0..count {
            part.put(8, random.field(8));
            if !immediate {
                splice_time(random, part);
            }
        }
    }
    if duration {
        break_duration(random, part);
    }
    part.put(32, random.field(32));
}

/// What an event of a schedule holds that is not cancelled.
fn event_splicing(random: &mut Random, part: &mut Writer, components: Option<usize>) {
    let duration = random.once_in(2);
    part.put(1, random.field(1));
    part.put(1, u64::from(components.is_none()));
    part.put(1, u64::from(duration));
    part.put(5, random.field(5));
    match components {
        None => part.put(32, random.field(32)),
        Some(count) => {
            part.marked("component_count", 8, count as u64);
            for _ in 0..count {
                part.put(8, random.field(8));
                part.put(32, random.field(32));
            }
        }
    }
    if duration {
        break_duration(random, part);
    }
    part.put(32, random.field(32));
}

fn splice_time(random: &mut Random, part: &mut Writer) {
    let given = random.once_in(2);
    part.put(1, u64::from(given));
    if given {
        part.put(6, random.field(6));
        part.put(33, random.field(33));
    } else {
        part.put(7, random.field(7));
    }
}

fn break_duration(random: &mut Random, part: &mut Writer) {
    part.put(1, random.field(1));
    part.put(6, random.field(6));
    part.put(33, random.field(33));
}
