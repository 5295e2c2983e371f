//! Fields of bits: every place and width of short lists, places past all ends, random ones.

use crate::support::Bench;

/// Reads the field and tries to write it with values that fit, almost fit and do not fit.
fn try_field(bench: &mut Bench, bytes: &[u8], at: usize, width: usize) {
    bench.field_read(bytes, at, width);
    let limit = 1u64.checked_shl(width as u32).unwrap_or(0);
    let random = bench.random.number();
    let values = [
        0,
        1,
        limit.wrapping_sub(1),
        limit,
        limit.wrapping_add(1),
        random & limit.wrapping_sub(1),
        random,
        u64::MAX,
    ];
    for value in values {
        bench.field_write(bytes, at, width, value);
    }
}

#[test]
fn every_place_and_width_of_short_lists() {
    let mut bench = Bench::new();
    for length in 0..=9 {
        for at in 0..=8 * length + 2 {
            for width in 0..=64 {
                let bytes = bench.random.bytes(length);
                try_field(&mut bench, &bytes, at, width);
            }
        }
    }
}

#[test]
fn all_ones_and_all_zeros() {
    let mut bench = Bench::new();
    for filled in [0x00, 0xFF] {
        let bytes = [filled; 8];
        for at in 0..=64 {
            for width in 0..=64 {
                try_field(&mut bench, &bytes, at, width);
            }
        }
    }
}

#[test]
fn places_and_widths_past_all_ends() {
    let mut bench = Bench::new();
    let mut far = vec![65, 255, 256, 257];
    for power in [16, 31, 32, 48, 60, 61, 62, 63] {
        let power = 1usize << power;
        far.extend([power - 8, power - 1, power, power + 1, power + 8]);
    }
    far.extend((0..=64).map(|back| usize::MAX - back));
    let near = [0, 1, 7, 8, 9, 32, 48, 63, 64];
    for length in [0, 1, 8] {
        let bytes = bench.random.bytes(length);
        for far_one in &far {
            for other in near.iter().chain(&far) {
                bench.field_read(&bytes, *far_one, *other);
                bench.field_read(&bytes, *other, *far_one);
                for value in [0, 1] {
                    bench.field_write(&bytes, *far_one, *other, value);
                    bench.field_write(&bytes, *other, *far_one, value);
                }
            }
        }
    }
}

#[test]
fn random_fields() {
    let mut bench = Bench::new();
    for _ in 0..300_000 {
        let length = bench.random.within(0..=60);
        let bytes = bench.random.bytes(length);
        let at = bench.random.within(0..=8 * length);
        let width = bench.random.within(0..=50);
        try_field(&mut bench, &bytes, at, width);
    }
    for _ in 0..2_000 {
        let bytes = bench.random.bytes(4096);
        let at = bench.random.within(0..=8 * 4096);
        let width = bench.random.within(0..=50);
        try_field(&mut bench, &bytes, at, width);
    }
}

#[test]
fn what_is_written_is_read_back() {
    let mut bench = Bench::new();
    for _ in 0..200_000 {
        let width = bench.random.within(0..=48);
        let at = bench.random.within(0..=64);
        let mut bytes = bench.random.bytes(14);
        let value = bench.random.number() % (1 << width);
        assert!(bench.field_write(&bytes, at, width, value));
        assert!(second::bits::write_field(&mut bytes, at, width, value));
        assert_eq!(bench.field_read(&bytes, at, width), value);
    }
}
