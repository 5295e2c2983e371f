//! Inserts of many components and schedules of many events, up to the 255 that a count can say.

use super::{back, header, FRAME};
use crate::support::built::LONGEST;
use crate::support::Bench;

/// Inserts with up to 255 components, immediate and not, each time given or not.
#[test]
fn inserts_of_components() {
    let mut bench = Bench::new();
    for count in (0..=250).step_by(10).chain(251..=255) {
        for immediate in [0, 1] {
            for open in [false, true] {
                let mut inside = vec![5, 9, 0, 0, 1, 0, 1, immediate, 15, count];
                let mut length = 4 + 1 + 1 + 1;
                for tag in 0..count {
                    inside.push(tag);
                    length += 1;
                    if immediate == 1 {
                        continue;
                    }
                    if bench.random.once_in(2) {
                        inside.extend([1, bench.random.field(6), bench.random.field(33)]);
                        length += 5;
                    } else {
                        inside.extend([0, bench.random.field(7)]);
                        length += 1;
                    }
                }
                // break_duration() and what follows it.
                inside.extend([1, 63, bench.random.field(33), 2, 3, 4]);
                length += 5 + 4;
                inside.push(0);
                let stated = if open { 0xFFF } else { length };
                let sheet = [header(0, stated), inside].concat();
                assert!(back(&mut bench, &sheet));
                let mut other = sheet;
                for count in [count.wrapping_sub(1), count + 1] {
                    other[20] = count;
                    back(&mut bench, &other);
                }
            }
        }
    }
}

/// Schedules of up to 255 events: cancelled they fit, in full they are too many for one section.
#[test]
fn schedules_of_events() {
    let mut bench = Bench::new();
    let events: [(usize, &[u64]); 4] = [
        (5, &[9, 1, 127]),
        (10 + 4, &[9, 0, 127, 1, 1, 0, 31, 7, 2, 3, 4]),
        (11, &[9, 0, 127, 1, 0, 0, 31, 0, 2, 3, 4]),
        (26, &[9, 0, 0, 1, 0, 1, 0, 2, 7, 8, 7, 8, 1, 63, 5, 2, 3, 4]),
    ];
    for (bytes, event) in events {
        let most = ((LONGEST - FRAME - 1) / bytes).min(255);
        for count in [0, 1, 100, most - 1, most, most + 1, 254, 255] {
            if count > 255 {
                continue;
            }
            for open in [false, true] {
                let length = 1 + count * bytes;
                let stated = if open { 0xFFF } else { length % 0x1000 };
                let mut sheet = header(0, stated as u64);
                sheet.extend([4, count as u64]);
                for _ in 0..count {
                    sheet.extend(event);
                }
                sheet.push(0);
                assert_eq!(
                    back(&mut bench, &sheet),
                    count <= most,
                    "{count} of {bytes}"
                );
            }
        }
    }
}
