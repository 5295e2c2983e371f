//! Random sections that must be accepted, built from random structures of every kind.
//! Each knows where its lengths and counts stand, so that they can be changed afterwards.

mod command;
mod descriptor;
mod mixed;
mod partner;
mod repair;
mod segmentation;
mod writer;

use super::random::Random;

pub use command::{Command, Event};
pub use descriptor::Descriptor;
pub use mixed::mixed_signal;
pub use partner::{partner, Partner, CHANGES};
pub use repair::{cut, grown, with_crc, with_length_and_crc};
pub use segmentation::{any_duration, Segmentation, OPENING_TYPES, SUB_SEGMENT_TYPES};
pub use writer::{Mark, Writer};

/// The most bytes of a section.
pub const LONGEST: usize = 4096;

/// The bytes before splice_command_type, and those of the CRC.
const AROUND: usize = 13 + 4;

/// The byte and the bit of encrypted_packet.
const ENCRYPTED_PACKET: (usize, u8) = (4, 0x80);

/// How long the lists are.
#[derive(Clone, Copy, PartialEq, Eq)]
pub enum Size {
    /// Up to three things.
    Short,
    /// Up to 255 things.
    Long,
}

impl Size {
    pub fn count(self, random: &mut Random) -> usize {
        match (self, random.within(0..=2)) {
            (Size::Long, 0) => 255,
            (Size::Long, 1) => random.within(0..=60),
            _ => random.within(0..=3),
        }
    }
}

pub struct Built {
    pub bytes: Vec<u8>,
    pub marks: Vec<Mark>,
}

/// A section of any kind, with any command, descriptors and stuffing.
pub fn any_section(random: &mut Random, size: Size) -> Built {
    if random.once_in(12) {
        let most = if size == Size::Long { 4079 } else { 60 };
        let count = random.within(7..=most);
        return sealed(random, count);
    }
    let command = Command::any(random, size);
    let mut room = LONGEST - AROUND - 1 - command.part.count() - 2;
    let mut descriptors = Vec::new();
    for _ in 0..size.count(random) {
        let descriptor = Descriptor::any(random, size);
        if descriptor.count() <= room {
            room -= descriptor.count();
            descriptors.push(descriptor);
        }
    }
    let stuffing = match random.within(0..=5) {
        0 => random.within(1..=9),
        1 if size == Size::Long => room,
        _ => 0,
    };
    let stuffing = random.bytes(stuffing.min(room));
    section(random, command, descriptors, &stuffing)
}

/// A section of the sort that opens a break: a time signal or an insert, with segmentation
/// descriptors of which some open one, and others among them. Half are time signals of mixed types.
pub fn cue(random: &mut Random) -> Built {
    if random.once_in(2) {
        return mixed_signal(random).built;
    }
    let command = match random.within(0..=3) {
        0 => Command::insert(random, Size::Short),
        _ => Command::time_signal(random),
    };
    let count = random.within(0..=4);
    let descriptors = (0..count).map(|_| match random.within(0..=7) {
        0 => Descriptor::look_alike(random),
        1 => Descriptor::any(random, Size::Short),
        _ => Segmentation::of_a_cue(random).descriptor(random),
    });
    let descriptors = descriptors.collect();
    section(random, command, descriptors, &[])
}

/// A section that is not sealed, and often a cue.
pub fn unsealed_section(random: &mut Random) -> Built {
    if random.once_in(2) {
        return cue(random);
    }
    loop {
        let built = any_section(random, Size::Short);
        if built.bytes[ENCRYPTED_PACKET.0] & ENCRYPTED_PACKET.1 == 0 {
            return built;
        }
    }
}

/// A section that is not short, but not so long that to try all its places takes long.
pub fn middling_section(random: &mut Random) -> Built {
    loop {
        let built = any_section(random, Size::Long);
        if (300..=1500).contains(&built.bytes.len()) {
            return built;
        }
    }
}

/// A section of 4,096 bytes: a long one, with stuffing up to there.
pub fn longest_section(random: &mut Random) -> Built {
    let mut built = any_section(random, Size::Long);
    let more = random.bytes(4096 - built.bytes.len());
    built.bytes = grown(&built.bytes, &more);
    assert_eq!(built.bytes.len(), 4096);
    built
}

/// A section of 4,096 bytes whose descriptors reach to the CRC.
pub fn filled_section(random: &mut Random) -> Built {
    let command = Command::any(random, Size::Short);
    let mut room = LONGEST - AROUND - 1 - command.part.count() - 2;
    let mut descriptors = Vec::new();
    while room > 300 {
        let descriptor = Descriptor::any(random, Size::Long);
        room -= descriptor.count();
        descriptors.push(descriptor);
    }
    // Two more fill the room exactly.
    for count in [room / 2, room - room / 2] {
        let mut body = Writer::default();
        body.bytes(&random.bytes(count - 6));
        descriptors.push(Descriptor::whole(0xF0, 7, body));
    }
    let built = section_with_length(random, command, false, descriptors, &[]);
    assert_eq!(built.bytes.len(), LONGEST);
    built
}

/// A section of this command, these descriptors and this stuffing; a command that ends by itself
/// has its length left open once in three times.
pub fn section(
    random: &mut Random,
    command: Command,
    descriptors: Vec<Writer>,
    stuffing: &[u8],
) -> Built {
    let open = command.ends_by_itself && random.once_in(3);
    section_with_length(random, command, open, descriptors, stuffing)
}

/// The same, the command's length written out or left open.
pub fn section_with_length(
    random: &mut Random,
    command: Command,
    open: bool,
    descriptors: Vec<Writer>,
    stuffing: &[u8],
) -> Built {
    let stated = if open { 0xFFF } else { command.part.count() };
    let loop_length = descriptors.iter().map(Writer::count).sum::<usize>();
    let mut inside = Writer::default();
    inside.put(8, u64::from(command.kind));
    inside.append(command.part);
    inside.marked("descriptor_loop_length", 16, loop_length as u64);
    for descriptor in descriptors {
        inside.append(descriptor);
    }
    inside.bytes(stuffing);
    framed(random, false, stated as u64, inside)
}

/// A sealed section with this many random bytes between header and CRC.
pub fn sealed(random: &mut Random, count: usize) -> Built {
    let stated = random.field(12);
    let mut inside = Writer::default();
    inside.bytes(&random.bytes(count));
    framed(random, true, stated, inside)
}

/// The header, the inside and the CRC.
fn framed(random: &mut Random, encrypted: bool, stated: u64, inside: Writer) -> Built {
    let count = inside.count() + AROUND;
    let mut whole = Writer::default();
    whole.put(8, 0xFC);
    whole.put(2, 0);
    whole.put(2, random.field(2));
    whole.marked("section_length", 12, count as u64 - 3);
    whole.put(8, 0);
    whole.put(1, u64::from(encrypted));
    whole.put(6, random.field(6));
    whole.put(33, random.field(33));
    whole.put(8, random.field(8));
    whole.put(12, random.field(12));
    whole.marked("splice_command_length", 12, stated);
    whole.append(inside);
    whole.put(32, 0);
    let (bytes, marks) = whole.done();
    let bytes = with_crc(&bytes);
    Built { bytes, marks }
}
