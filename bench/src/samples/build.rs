//! Sections put together from bytes, every field as SCTE 35 has it: those that are timed, and the
//! parts of which others are made.

use second::crc::crc32;

/// splice_time() with a time.
pub const TIME: [u8; 5] = [0xFE, 0x00, 0x30, 0x10, 0xE9];

/// unique_program_id, avail_num and avails_expected.
const AVAILS: [u8; 4] = [0x00, 0x10, 1, 2];

/// The descriptors that a long loop repeats, each tag and both forms of a segmentation among them.
pub fn kinds() -> Vec<Vec<u8>> {
    let upid = b"SIGNAL:2F7A";
    let segmentation = |head: &[u8], tail: &[u8]| known(2, &[b"\0\0\0\x3B", head, tail].concat());
    let timed = [
        &[0x7F, 0xFF, 0x00, 0x01, 0x14, 0xAC, 0x4A, 0x09, 11],
        &upid[..],
    ]
    .concat();
    let components = [
        0x7F, 0x3F, 2, 1, 0xFE, 0, 0, 0, 0, 2, 0xFE, 0, 0, 0, 9, 0, 0,
    ];
    vec![
        segmentation(&timed, &[0x34, 1, 2, 0, 0]),
        known(0, &[0, 0, 1, 0x35]),
        segmentation(&timed, &[0x35, 1, 2]),
        known(3, &[0, 0, 0x5F, 0xE3, 0x10, 0, 0, 0, 0, 7, 0, 37]),
        segmentation(&components, &[0x10, 0, 0]),
        known(1, &[50, 4 << 5 | 0x1F, b'1', b'2', b'1', b'#']),
        segmentation(&[0xFF], &[]),
        descriptor(0xF0, b"ABCD", &[0x5A; 14]),
        known(4, &[1 << 4 | 0x0F, 1, b'e', b'n', b'g', 0x45]),
    ]
}

pub fn known(tag: u8, body: &[u8]) -> Vec<u8> {
    descriptor(tag, b"CUEI", body)
}

pub fn descriptor(tag: u8, identifier: &[u8; 4], body: &[u8]) -> Vec<u8> {
    [&[tag, 4 + body.len() as u8], &identifier[..], body].concat()
}

/// A time signal of that many bytes: descriptors until the next would not fit, and stuffing.
pub fn descriptors(bytes: usize) -> Vec<u8> {
    let room = bytes - section(0x06, &TIME, &[], 0).len();
    let kinds = kinds();
    let mut filled = Vec::new();
    for kind in kinds.iter().cycle() {
        if filled.len() + kind.len() > room {
            break;
        }
        filled.extend(kind);
    }
    section(0x06, &TIME, &filled, room - filled.len())
}

/// A time signal with that many descriptors.
pub fn signal(count: usize) -> Vec<u8> {
    let kinds = kinds();
    let filled: Vec<u8> = kinds
        .iter()
        .cycle()
        .take(count)
        .flatten()
        .copied()
        .collect();
    section(0x06, &TIME, &filled, 0)
}

/// A segmentation descriptor that opens a break, and an avail descriptor.
pub fn two_descriptors() -> Vec<u8> {
    kinds()[..2].concat()
}

/// An insert out of the network by that many components, each with a time, and a duration.
pub fn component_insert(components: u8) -> Vec<u8> {
    let times = (0..components).flat_map(|tag| [&[tag][..], &TIME].concat());
    let head = [0, 0, 1, 0xC0, 0x7F, 0xAF, components];
    let command = [&head[..], &times.collect::<Vec<_>>(), &TIME, &AVAILS].concat();
    section(0x05, &command, &[], 0)
}

/// A private command of that many bytes behind its identifier.
pub fn private(bytes: usize) -> Vec<u8> {
    section(0xFF, &[&b"ABCD"[..], &vec![0x5A; bytes]].concat(), &[], 0)
}

/// A command of a type that the standard does not have.
pub fn unknown(bytes: usize) -> Vec<u8> {
    section(0x20, &vec![0x5A; bytes], &[], 0)
}

/// A sealed section with that many bytes where its command was.
pub fn sealed(bytes: usize) -> Vec<u8> {
    let mut sealed = section(0xAA, &vec![0x55; bytes], &[], 0);
    sealed[4] |= 0x80;
    put_crc(&mut sealed);
    sealed
}

/// A splice_null of that many bytes, all but 20 of them stuffing.
pub fn stuffing(bytes: usize) -> Vec<u8> {
    section(0x00, &[], &[], bytes - 20)
}

/// 4,096 bytes with 4,554 numbers, the most there can be: an insert of 255 components without a
/// time, 209 short segmentations with restricted delivery, and two bytes of stuffing.
pub fn longest_sheet() -> Vec<u8> {
    let components: Vec<u8> = (0..255).flat_map(|tag| [tag, 0x7F]).collect();
    let command = [&[0, 0, 0, 1, 0x7F, 0x8F, 255][..], &components, &[0; 4]].concat();
    let segmentation = known(2, &[0, 0, 0, 1, 0x7F, 0x9F, 0, 0, 0x10, 0, 0]);
    section(0x05, &command, &segmentation.repeat(209), 2)
}

/// A splice_schedule of that many events: with a duration, without, cancelled, and by components.
pub fn schedule(events: u8) -> Vec<u8> {
    let time = [0x4F, 0x3A, 0x91, 0x07];
    let avails = AVAILS;
    let duration = [0xFE, 0x00, 0x29, 0x32, 0xE0];
    let components = [[1].as_slice(), &time, &[2], &time].concat();
    let mut command = vec![events];
    for event in 0..events {
        command.extend([0, 0, 4, event]);
        match event % 4 {
            0 => command.extend([&[0x7F, 0xFF][..], &time, &duration, &avails].concat()),
            1 => command.extend([&[0x7F, 0xDF][..], &time, &avails].concat()),
            2 => command.push(0xFF),
            _ => command.extend([&[0x7F, 0x9F, 2][..], &components, &avails].concat()),
        }
    }
    section(0x04, &command, &[], 0)
}

/// splice_info_section() around a command, a descriptor loop and stuffing; the CRC is put right.
pub fn section(
    command_type: u8,
    command: &[u8],
    descriptor_loop: &[u8],
    stuffing: usize,
) -> Vec<u8> {
    let mut section = vec![0xFC, 0x30, 0, 0, 0, 0, 0, 0, 0, 0, 0xFF];
    section.extend((0xF000 | command.len() as u16).to_be_bytes());
    section.push(command_type);
    section.extend(command);
    section.extend((descriptor_loop.len() as u16).to_be_bytes());
    section.extend(descriptor_loop);
    section.resize(section.len() + stuffing, 0xFF);
    section.extend([0; 4]);
    let length = 0x3000 | (section.len() - 3) as u16;
    section[1..3].copy_from_slice(&length.to_be_bytes());
    put_crc(&mut section);
    section
}

/// Gives the section the CRC of the bytes before it.
pub fn put_crc(section: &mut [u8]) {
    let (bytes, crc) = section.split_at_mut(section.len() - 4);
    crc.copy_from_slice(&crc32(bytes).to_be_bytes());
}
