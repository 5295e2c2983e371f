//! A partner for a section: another section that differs from it only in what no answer may rest on,
//! which is reserved bits, stuffing and unknown descriptors, and the lengths and the CRC with them.

use super::descriptor::Descriptor;
use super::repair::with_length_and_crc;
use super::writer::Writer;
use super::{Random, LONGEST};
use second::section::{accept, Item};

/// A sort of difference between a section and its partner.
#[derive(Clone, Copy, Debug, PartialEq, Eq, PartialOrd, Ord)]
pub enum Change {
    SapType,
    ReservedBits,
    Stuffing,
    UnknownChanged,
    UnknownTakenOut,
    PutInBeforeKnown,
    PutInBetweenKnown,
    PutInBehindKnown,
}

/// Every sort.
pub const CHANGES: [Change; 8] = [
    Change::SapType,
    Change::ReservedBits,
    Change::Stuffing,
    Change::UnknownChanged,
    Change::UnknownTakenOut,
    Change::PutInBeforeKnown,
    Change::PutInBetweenKnown,
    Change::PutInBehindKnown,
];

pub struct Partner {
    pub bytes: Vec<u8>,
    /// What was drawn anew, each sort once; by chance it can be what it was.
    pub changes: Vec<Change>,
}

/// Another section that must have the answers of this one, which is accepted and not sealed.
pub fn partner(random: &mut Random, section: &[u8]) -> Partner {
    loop {
        let drawn = drawn(random, section);
        if drawn.bytes != section {
            return drawn;
        }
    }
}

fn drawn(random: &mut Random, section: &[u8]) -> Partner {
    let parts = Parts::of(section);
    let mut pen = Redrawn::new(random);
    let head = pen.written(&parts.head);
    let mut room = LONGEST - head.count() - 2 - 4;
    let list = descriptors(&mut pen, &parts.descriptors, &mut room);
    let stuffing = stuffing(&mut pen, &parts.stuffing, room);
    let mut whole = head;
    whole.put(16, list.count() as u64);
    whole.append(list);
    whole.bytes(&stuffing);
    whole.put(32, 0);
    let mut changes = pen.changes;
    changes.sort();
    changes.dedup();
    let bytes = with_length_and_crc(&whole.done().0);
    Partner { bytes, changes }
}

/// What a section has: all before descriptor_loop_length, the descriptors, the stuffing.
struct Parts {
    head: Vec<Item>,
    descriptors: Vec<Part>,
    stuffing: Vec<u8>,
}

struct Part {
    known: bool,
    items: Vec<Item>,
}

impl Parts {
    fn of(section: &[u8]) -> Parts {
        let items = accept(section).expect("an accepted section").items();
        let is_length = |item: &Item| matches!(item, Item::Number("descriptor_loop_length", ..));
        let length_at = items.iter().position(is_length).expect("not sealed");
        let mut descriptors = Vec::new();
        let mut stuffing = Vec::new();
        let mut depth = 0;
        for item in &items[length_at + 1..] {
            match item {
                Item::Open(name) if depth == 0 => descriptors.push(Part {
                    known: *name != "splice_descriptor()",
                    items: vec![],
                }),
                Item::Bytes("alignment_stuffing", bytes) => stuffing.clone_from(bytes),
                Item::Number("CRC_32", ..) => break,
                _ => {}
            }
            match item {
                Item::Open(_) => depth += 1,
                Item::Close => depth -= 1,
                _ if depth > 0 => {
                    let last = descriptors.last_mut().expect("a descriptor");
                    last.items.push(item.clone());
                }
                _ => {}
            }
        }
        Parts {
            head: items[..length_at].to_vec(),
            descriptors,
            stuffing,
        }
    }
}

/// Fields written again, those that count as they are, and some of the others drawn anew.
struct Redrawn<'a> {
    random: &'a mut Random,
    changes: Vec<Change>,
    reserved: bool,
    unknown: bool,
}

impl Redrawn<'_> {
    fn new(random: &mut Random) -> Redrawn<'_> {
        let reserved = random.once_in(2);
        let unknown = random.once_in(2);
        Redrawn {
            random,
            changes: vec![],
            reserved,
            unknown,
        }
    }

    fn written(&mut self, items: &[Item]) -> Writer {
        let mut to = Writer::default();
        for item in items {
            match item {
                Item::Number(name, width, value) => {
                    to.put(*width, self.value(name, *width, *value))
                }
                Item::Bytes(_, bytes) => to.bytes(bytes),
                Item::Open(_) | Item::Close => {}
            }
        }
        to
    }

    /// What stands in a field of the partner.
    fn value(&mut self, name: &str, width: usize, value: u64) -> u64 {
        let change = match name {
            "sap_type" => Change::SapType,
            "reserved" => Change::ReservedBits,
            _ => return value,
        };
        if !self.reserved || self.random.once_in(4) {
            return value;
        }
        self.changes.push(change);
        self.random.field(width)
    }
}

/// The known ones as they stand, unknown ones between them changed, taken out and put in.
fn descriptors(pen: &mut Redrawn, parts: &[Part], room: &mut usize) -> Writer {
    let all_known = parts.iter().filter(|part| part.known).count();
    let mut to_come = all_known;
    let mut list: Vec<(bool, Writer)> = Vec::new();
    for part in parts {
        put_in(pen, &mut list, all_known, to_come);
        if part.known {
            to_come -= 1;
            list.push((true, pen.written(&part.items)));
        } else if let Some(unknown) = kept(pen, part) {
            list.push((false, unknown));
        }
    }
    put_in(pen, &mut list, all_known, to_come);
    let known = list.iter().filter(|(known, _)| *known);
    *room -= known.map(|(_, part)| part.count()).sum::<usize>();
    let mut whole = Writer::default();
    for (known, part) in list {
        if !known && part.count() > *room {
            continue;
        }
        if !known {
            *room -= part.count();
        }
        whole.append(part);
    }
    whole
}

/// An unknown descriptor as it stands, or another for it, or none.
fn kept(pen: &mut Redrawn, part: &Part) -> Option<Writer> {
    match pen.random.within(0..=2) {
        0 if pen.unknown => {
            pen.changes.push(Change::UnknownTakenOut);
            None
        }
        1 if pen.unknown => {
            pen.changes.push(Change::UnknownChanged);
            Some(Descriptor::unknown(pen.random))
        }
        _ => Some(pen.written(&part.items)),
    }
}

/// Puts unknown descriptors into the list where it ends now, sometimes.
fn put_in(pen: &mut Redrawn, list: &mut Vec<(bool, Writer)>, all: usize, to_come: usize) {
    while pen.unknown && pen.random.once_in(4) {
        let change = if to_come == 0 {
            Change::PutInBehindKnown
        } else if to_come == all {
            Change::PutInBeforeKnown
        } else {
            Change::PutInBetweenKnown
        };
        pen.changes.push(change);
        list.push((false, Descriptor::unknown(pen.random)));
    }
}

/// The stuffing as it stands or anew, so that it fits. It can look like a descriptor.
fn stuffing(pen: &mut Redrawn, now: &[u8], room: usize) -> Vec<u8> {
    if pen.random.once_in(2) && now.len() <= room {
        return now.to_vec();
    }
    pen.changes.push(Change::Stuffing);
    let mut bytes = match pen.random.within(0..=5) {
        0 => vec![],
        1 => Descriptor::any(pen.random, super::Size::Short).done().0,
        2 if pen.random.once_in(40) => pen.random.bytes(room),
        _ => {
            let count = pen.random.within(1..=12);
            pen.random.bytes(count)
        }
    };
    bytes.truncate(room);
    bytes
}
