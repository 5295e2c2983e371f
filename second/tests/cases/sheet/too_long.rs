//! Sheets of sections that would have more than 4,096 bytes, some of them far more.

use super::{back, bytes, header};
use crate::support::built::{any_section, Size, LONGEST};
use crate::support::Bench;
use second::sheet::sheet_of;

/// Lists of this many numbers and more: with bytes behind a right header they would be right in all
/// but their length.
const COUNTS: [usize; 4] = [40_000, 65_535, 65_536 + 11, 100_000];

/// Stuffing and sealed bytes, far too many; and lists that are wrong from the front on.
#[test]
fn bytes_without_end() {
    let mut bench = Bench::new();
    for count in COUNTS {
        for number in [0, 255, 256] {
            let filled = vec![number; count];
            let stuffed = [header(0, 0), vec![0, 0], filled.clone()].concat();
            let closed = [header(1, 0), filled.clone()].concat();
            for sheet in [stuffed, closed, filled] {
                assert!(!back(&mut bench, &sheet));
            }
        }
        let mut sheet = vec![0; count];
        sheet.fill_with(|| bench.random.number_of_any_size());
        assert!(!back(&mut bench, &sheet));
    }
}

/// A schedule of 255 events with 255 components each.
#[test]
fn the_longest_schedule() {
    let mut bench = Bench::new();
    let mut sheet = header(0, 0xFFF);
    sheet.extend([4, 255]);
    for _ in 0..255 {
        sheet.extend([9, 0, 127, 1, 0, 0, 31, 255]);
        sheet.extend((0..510).map(|number| number / 2));
        sheet.extend([2, 3, 4]);
    }
    sheet.push(0);
    assert!(sheet.len() > 130_000);
    assert!(!back(&mut bench, &sheet));
}

/// Stuffing up to 4,096 bytes, past them, and up to lengths that 12 bits take for others.
#[test]
fn stuffed_beyond_the_edge() {
    let mut bench = Bench::new();
    for _ in 0..4 {
        let built = any_section(&mut bench.random, Size::Long);
        let sheet = sheet_of(&built.bytes).unwrap();
        let missing = LONGEST - built.bytes.len();
        for beyond in [0, 1, 2, 3, 4, 4095, 4096, 4097, 8192] {
            let stuffing = bytes(&mut bench.random, missing + beyond);
            let longer = [sheet.as_slice(), &stuffing].concat();
            assert_eq!(back(&mut bench, &longer), beyond == 0);
        }
    }
}
