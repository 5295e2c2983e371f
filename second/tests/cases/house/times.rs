//! Effective times around the end of the clock.

use crate::support::built::{section, with_crc, Command};
use crate::support::house::EFFECTIVE_TIME;
use crate::support::Bench;
use second::bits::write_field;
use second::section::Apart;

/// The first bits of pts_adjustment and of the pts_time of a time signal.
const PTS_ADJUSTMENT: usize = 39;
const PTS_TIME: usize = 8 * 14 + 7;

pub fn all(bench: &mut Bench) {
    worked_sums(bench);
    let clocks = [0, 1, 2, 1 << 31, 1 << 32, (1 << 33) - 2, (1 << 33) - 1];
    for pts_time in clocks {
        for pts_adjustment in clocks {
            let ticks = (pts_time + pts_adjustment) % (1 << 33);
            is(bench, pts_time, pts_adjustment, ticks);
        }
    }
    for _ in 0..2_000 {
        let (pts_time, pts_adjustment) = (bench.random.field(33), bench.random.field(33));
        let ticks = (pts_time + pts_adjustment) % (1 << 33);
        is(bench, pts_time, pts_adjustment, ticks);
    }
}

/// As 01 prints them.
fn worked_sums(bench: &mut Bench) {
    is(bench, 8_589_934_591, 1, 0);
    is(bench, 5_672_624_400, 180_832, 5_672_805_232);
}

fn is(bench: &mut Bench, pts_time: u64, pts_adjustment: u64, ticks: u64) {
    let section = signal(bench, pts_time, pts_adjustment);
    let answer = bench.house_answer(&EFFECTIVE_TIME, &Apart::of(&section));
    assert_eq!(answer, Ok(vec![1, ticks]));
}

/// A time signal with this time, on a clock with this adjustment.
fn signal(bench: &mut Bench, pts_time: u64, pts_adjustment: u64) -> Vec<u8> {
    let random = &mut bench.random;
    let mut command = Command::time_signal(random);
    command.part = Default::default();
    command.part.put(1, 1);
    command.part.put(6, random.field(6));
    command.part.put(33, 0);
    let mut section = section(random, command, vec![], &[]).bytes;
    assert!(write_field(
        &mut section,
        PTS_ADJUSTMENT,
        33,
        pts_adjustment
    ));
    assert!(write_field(&mut section, PTS_TIME, 33, pts_time));
    with_crc(&section)
}
