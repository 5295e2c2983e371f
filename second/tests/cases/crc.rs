//! The CRC: known figures, every short input, random ones, and what a CRC must notice.

use crate::support::Bench;

#[test]
fn known_figures() {
    let mut bench = Bench::new();
    assert_eq!(bench.crc32(b""), 0xFFFF_FFFF);
    assert_eq!(bench.crc32(b"123456789"), 0x0376_E6E7);
    assert_eq!(bench.crc32(&[0xFF; 4]), 0);
}

#[test]
fn every_input_of_one_and_two_bytes() {
    let mut bench = Bench::new();
    for a in 0..=255 {
        bench.crc32(&[a]);
        for b in 0..=255 {
            bench.crc32(&[a, b]);
        }
    }
}

#[test]
fn every_length_up_to_300() {
    let mut bench = Bench::new();
    for length in 0..=300 {
        let bytes = bench.random.bytes(length);
        bench.crc32(&bytes);
        bench.crc32(&vec![0x00; length]);
        bench.crc32(&vec![0xFF; length]);
    }
}

#[test]
fn random_inputs() {
    let mut bench = Bench::new();
    for _ in 0..10_000 {
        let length = bench.random.within(0..=300);
        let bytes = bench.random.bytes(length);
        bench.crc32(&bytes);
    }
}

#[test]
fn long_inputs() {
    let mut bench = Bench::new();
    for length in [4093, 4095, 4096, 4096, 4096, 4097, 10_000] {
        let bytes = bench.random.bytes(length);
        bench.crc32(&bytes);
    }
}

#[test]
fn the_crc_put_at_the_end_makes_zero() {
    let mut bench = Bench::new();
    for length in (0..=300).chain([4092]) {
        let mut bytes = bench.random.bytes(length);
        let crc = bench.crc32(&bytes);
        bytes.extend(crc.to_be_bytes());
        assert_eq!(bench.crc32(&bytes), 0);
    }
}

#[test]
fn one_bit_turned_over_changes_it() {
    let mut bench = Bench::new();
    for length in [1, 2, 3, 4, 5, 20, 55, 128] {
        let bytes = bench.random.bytes(length);
        let crc = bench.crc32(&bytes);
        for place in 0..8 * length {
            let mut other = bytes.clone();
            other[place / 8] ^= 0x80 >> (place % 8);
            assert_ne!(bench.crc32(&other), crc, "bit {place}");
        }
    }
}
