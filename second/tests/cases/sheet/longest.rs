//! Sections of 4,096 bytes, filled in every way, and one byte more on their sheets.

use super::{back, bytes, header, there_and_back, FRAME};
use crate::support::built::{
    any_section, filled_section, grown, longest_section, sealed, section_with_length, Command,
    Segmentation, Size, LONGEST,
};
use crate::support::Bench;

const CUEI: u64 = 0x4355_4549;

/// A sheet of a header and these numbers, which make a section of 4,096 bytes; one stuffing byte
/// more makes one too many.
fn is_longest(bench: &mut Bench, sheet: &[u64]) {
    let section = bench.sheet_to_section(sheet).expect("a sheet");
    assert_eq!(section.len(), LONGEST);
    assert!(there_and_back(bench, &section) == sheet);
    assert!(!back(bench, &[sheet, &[0]].concat()));
    // Without its last number it is no longer too long, but a sheet only if that was stuffing.
    back(bench, &sheet[..sheet.len() - 1]);
}

#[test]
fn stuffing_and_sealed_bytes() {
    let mut bench = Bench::new();
    let random = &mut bench.random;
    let stuffed = [header(0, 0), vec![0, 0], bytes(random, LONGEST - FRAME)].concat();
    let closed = [header(1, 0xABC), bytes(random, LONGEST - 17)].concat();
    is_longest(&mut bench, &stuffed);
    is_longest(&mut bench, &closed);
    for _ in 0..10 {
        let built = longest_section(&mut bench.random);
        let sheet = there_and_back(&mut bench, &built.bytes);
        is_longest(&mut bench, &sheet);
        let built = sealed(&mut bench.random, LONGEST - 17);
        let sheet = there_and_back(&mut bench, &built.bytes);
        is_longest(&mut bench, &sheet);
        let built = any_section(&mut bench.random, Size::Short);
        let more = bench.random.bytes(LONGEST - built.bytes.len());
        let sheet = there_and_back(&mut bench, &grown(&built.bytes, &more));
        is_longest(&mut bench, &sheet);
    }
}

/// A private command and an unknown one that fill the section; one byte more, stated, is too many.
#[test]
fn one_command() {
    let mut bench = Bench::new();
    let most = LONGEST - FRAME;
    for (kind, front) in [(0xFF, 4), (0x55, 0)] {
        for more in [0, 1, 2, 18] {
            let length = most + more;
            let mut sheet = header(0, length as u64);
            sheet.push(kind);
            if front == 4 {
                sheet.push(bench.random.field(32));
            }
            sheet.extend(bytes(&mut bench.random, length - front));
            sheet.push(0);
            match more {
                0 => is_longest(&mut bench, &sheet),
                _ => assert!(!back(&mut bench, &sheet)),
            }
        }
    }
}

/// As many descriptors as fit, of one kind, on a sheet with a splice_null(), and one too many.
fn of_one_kind(bench: &mut Bench, bytes: usize, descriptor: &[u64]) {
    let most = (LONGEST - FRAME) / bytes;
    for count in [most, most + 1, 65_535 / bytes] {
        let mut sheet = header(0, 0);
        sheet.extend([0, (count * bytes) as u64]);
        for _ in 0..count {
            sheet.extend(descriptor);
        }
        if count > most {
            assert!(!back(bench, &sheet));
            continue;
        }
        assert!(back(bench, &sheet));
        // The loop's length one off, and one descriptor less than it says.
        for stated in [count * bytes - 1, count * bytes + 1] {
            let mut other = sheet.clone();
            other[12] = stated as u64;
            assert!(!back(bench, &other));
        }
        assert!(!back(bench, &sheet[..sheet.len() - descriptor.len()]));
        let stuffing = LONGEST - FRAME - count * bytes;
        sheet.extend(std::iter::repeat_n(255, stuffing));
        is_longest(bench, &sheet);
    }
}

#[test]
fn many_descriptors() {
    let mut bench = Bench::new();
    let bench = &mut bench;
    // The smallest: an identifier and nothing behind it.
    of_one_kind(bench, 6, &[0, 4, 7]);
    of_one_kind(bench, 6, &[5, 4, CUEI]);
    of_one_kind(bench, 7, &[4, 5, CUEI, 0, 15]);
    of_one_kind(bench, 8, &[1, 6, CUEI, 255, 0, 31]);
    of_one_kind(bench, 10, &[0, 8, CUEI, 0xFFFF_FFFF]);
    of_one_kind(
        bench,
        18,
        &[3, 16, CUEI, (1 << 48) - 1, 0xFFFF_FFFF, 0xFFFF],
    );
    // Segmentation: cancelled, the shortest, with sub-segments, with every optional field.
    of_one_kind(bench, 11, &[2, 9, CUEI, 9, 1, 127]);
    of_one_kind(
        bench,
        17,
        &[2, 15, CUEI, 9, 0, 0, 1, 0, 1, 31, 0, 0, 0x34, 1, 1],
    );
    of_one_kind(
        bench,
        19,
        &[2, 17, CUEI, 9, 0, 0, 1, 0, 1, 31, 0, 0, 0x34, 1, 1, 2, 2],
    );
    let full = [
        2,
        30,
        CUEI,
        9,
        0,
        0,
        0,
        1,
        0,
        1,
        1,
        1,
        3,
        1,
        8,
        127,
        (1 << 33) - 1,
    ];
    let rest = [(1 << 40) - 1, 1, 1, 65, 0x46, 1, 1, 2, 2];
    let full = [full.as_slice(), &rest].concat();
    of_one_kind(bench, 32, &full);
    // The longest: 255 bytes behind descriptor_length.
    let longest = [vec![0xF0, 255, 7], vec![255; 251]].concat();
    of_one_kind(bench, 257, &longest);
}

/// Descriptors of all kinds up to the CRC.
#[test]
fn filled_with_descriptors() {
    let mut bench = Bench::new();
    for _ in 0..10 {
        let built = filled_section(&mut bench.random);
        let sheet = there_and_back(&mut bench, &built.bytes);
        is_longest(&mut bench, &sheet);
    }
}

/// A UPID, components and sub-segments in one descriptor of 255 bytes.
#[test]
fn the_longest_segmentation() {
    let mut bench = Bench::new();
    for components in [None, Some(0), Some(38)] {
        for timed in [false, true] {
            for behind in [0, 2] {
                let mut chosen = Segmentation {
                    cancelled: false,
                    components,
                    duration: timed.then(|| bench.random.field(40)),
                    upid: 0,
                    type_id: 0x30,
                    behind,
                };
                chosen.upid = chosen.most_upid();
                let random = &mut bench.random;
                let descriptor = chosen.descriptor(random);
                assert_eq!(descriptor.count(), 257);
                let list = vec![descriptor];
                let built = section_with_length(random, Command::null(), false, list, &[]);
                there_and_back(&mut bench, &built.bytes);
            }
        }
    }
}

/// No section of 4,096 bytes has more numbers: an insert's components without a time are three
/// numbers in two bytes, the shortest segmentation descriptor is 18 numbers in 17.
#[test]
fn the_longest_sheet() {
    let mut bench = Bench::new();
    let mut sheet = header(0, 521);
    sheet.extend([5, 9, 0, 127, 1, 0, 0, 0, 15, 255]);
    for tag in 0..255 {
        sheet.extend([tag, 0, 127]);
    }
    sheet.extend([2, 3, 4, 209 * 17]);
    for _ in 0..209 {
        sheet.extend([
            2, 15, CUEI, 9, 0, 127, 1, 0, 0, 1, 1, 1, 3, 0, 0, 0x10, 1, 1,
        ]);
    }
    sheet.extend([0, 0]);
    assert_eq!(sheet.len(), 4_554);
    is_longest(&mut bench, &sheet);
}
