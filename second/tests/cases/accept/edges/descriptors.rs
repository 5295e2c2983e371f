//! Rows 9 and 10: loops beside the CRC, lengths of descriptors, bodies of the known ones.

use super::expect;
use crate::support::built::{
    section, with_crc, with_length_and_crc, Command, Descriptor, Segmentation, Size, Writer,
};
use crate::support::Bench;
use second::refusal::{DESCRIPTOR, LOOP};

/// A loop that reaches to the CRC, and into it by one byte and more.
pub fn loops_at_the_crc(bench: &mut Bench) {
    let descriptor = Descriptor::any(&mut bench.random, Size::Short);
    let length = descriptor.count();
    let command = Command::any(&mut bench.random, Size::Short);
    let at = 14 + command.part.count();
    let whole = section(&mut bench.random, command, vec![descriptor], &[]).bytes;
    assert_eq!(whole.len(), at + 2 + length + 4);
    expect(bench, &whole, 0);
    for more in [1, 2, 3, 4, 5, 256, 0x7000] {
        let mut other = whole.clone();
        other[at..at + 2].copy_from_slice(&((length + more) as u16).to_be_bytes());
        expect(bench, &with_crc(&other), LOOP);
        // No descriptor is looked at before the loop fits.
        other[at + 3] = bench.random.within(0..=3) as u8;
        expect(bench, &with_crc(&other), LOOP);
    }
    let mut other = whole;
    other[at..at + 2].copy_from_slice(&((length - 1) as u16).to_be_bytes());
    expect(bench, &with_crc(&other), DESCRIPTOR);
}

pub fn lengths(bench: &mut Bench) {
    for length in 0..=6 {
        let mut bytes = vec![bench.random.within(5..=255) as u8, length];
        bytes.extend(bench.random.bytes(usize::from(length)));
        let mut descriptor = Writer::default();
        descriptor.bytes(&bytes);
        let whole = section(&mut bench.random, Command::null(), vec![descriptor], &[]);
        let row = if length < 4 { DESCRIPTOR } else { 0 };
        expect(bench, &whole.bytes, row);
    }
    // One byte alone is no descriptor.
    let mut alone = Writer::default();
    alone.bytes(&bench.random.bytes(1));
    let whole = section(&mut bench.random, Command::null(), vec![alone], &[]);
    expect(bench, &whole.bytes, DESCRIPTOR);
}

/// Each known body with a byte less and a byte more, its lengths right, alone and before another.
pub fn known_bodies(bench: &mut Bench) {
    let random = &mut bench.random;
    let cancelled = Segmentation {
        cancelled: true,
        ..Segmentation::any(random, Size::Short)
    };
    let uncancelled = Segmentation {
        cancelled: false,
        ..Segmentation::any(random, Size::Short)
    };
    let known = [
        Descriptor::avail(random),
        Descriptor::dtmf(random, 0),
        Descriptor::dtmf(random, 7),
        cancelled.descriptor(random),
        uncancelled.descriptor(random),
        Descriptor::time(random),
        Descriptor::audio(random, 0),
        Descriptor::audio(random, 15),
    ];
    for descriptor in known {
        for other in [None, Some(Descriptor::any(&mut bench.random, Size::Short))] {
            let others: Vec<Writer> = other.into_iter().collect();
            let all = [vec![descriptor.clone()], others].concat();
            let whole = section(&mut bench.random, Command::null(), all, &[]).bytes;
            expect(bench, &whole, 0);
            let end = 16 + descriptor.count();
            let mut longer = whole.clone();
            longer.insert(end, bench.random.number() as u8);
            expect(bench, &resized(longer, 1), DESCRIPTOR);
            let mut shorter = whole;
            shorter.remove(end - 1);
            expect(bench, &resized(shorter, -1), DESCRIPTOR);
        }
    }
}

/// The lengths of the loop, of its first descriptor and of the section changed to fit.
fn resized(mut section: Vec<u8>, by: i16) -> Vec<u8> {
    let loop_length = i16::from_be_bytes([section[14], section[15]]) + by;
    section[14..16].copy_from_slice(&loop_length.to_be_bytes());
    section[17] = section[17].wrapping_add_signed(by as i8);
    with_length_and_crc(&section)
}
