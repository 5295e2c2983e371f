//! Rows 1 to 7: sizes, indicators, version and sealed sections.

use super::expect;
use crate::support::built::{cut, grown, sealed, section, with_crc, Command};
use crate::support::{Bench, Random};
use second::refusal::{CRYPT, SHORT, SIZE, SYNTAX, VERSION};

fn null_section(random: &mut Random, stuffing: usize) -> Vec<u8> {
    let stuffing = random.bytes(stuffing);
    section(random, Command::null(), vec![], &stuffing).bytes
}

pub fn fewest_bytes(bench: &mut Bench) {
    let section = null_section(&mut bench.random, 0);
    assert_eq!(section.len(), 20);
    expect(bench, &section, 0);
    for count in 0..20 {
        expect(bench, &section[..count], SHORT);
    }
    expect(bench, &cut(&section, 19), SHORT);
    let sealed = sealed(&mut bench.random, 7).bytes;
    expect(bench, &sealed[..19], SHORT);
}

pub fn stated_sizes(bench: &mut Bench) {
    let section = null_section(&mut bench.random, 10);
    for stated in [0, 1, 17, 26, 28, 29, 4093, 4094, 4095] {
        let mut other = section.clone();
        other[1] = other[1] & 0xF0 | (stated >> 8) as u8;
        other[2] = stated as u8;
        expect(bench, &other, SIZE);
        expect(bench, &with_crc(&other), SIZE);
    }
    for (count, row) in [(4095, 0), (4096, 0), (4097, SIZE), (4098, SIZE)] {
        let more = bench.random.bytes(count - section.len());
        expect(bench, &grown(&section, &more), row);
    }
    // 4,099 bytes and more cannot be stated in 12 bits.
    for count in [4099, 4116, 8192] {
        let more = bench.random.bytes(count - section.len());
        expect(bench, &grown(&section, &more), SIZE);
    }
}

pub fn indicators_and_version(bench: &mut Bench) {
    let section = null_section(&mut bench.random, 3);
    for bits in [0x40, 0x80, 0xC0] {
        let mut other = section.clone();
        other[1] |= bits;
        expect(bench, &other, SYNTAX);
        expect(bench, &with_crc(&other), SYNTAX);
    }
    for sap_type in 0..=3 {
        let mut other = section.clone();
        other[1] = other[1] & 0xCF | sap_type << 4;
        expect(bench, &with_crc(&other), 0);
    }
    for protocol_version in [1, 2, 0x80, 0xFF] {
        let mut other = section.clone();
        other[3] = protocol_version;
        expect(bench, &with_crc(&other), VERSION);
    }
}

pub fn sealed_sections(bench: &mut Bench) {
    let section = sealed(&mut bench.random, 20).bytes;
    for count in 20..=section.len() {
        let row = if count < 24 { CRYPT } else { 0 };
        expect(bench, &cut(&section, count), row);
    }
    // Opened, its bytes are a command and descriptors again, and mostly bad ones.
    let mut opened = section.clone();
    opened[4] &= 0x7F;
    bench.accept(&with_crc(&opened));
}
