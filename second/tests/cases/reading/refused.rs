//! Damaged sections: every question gets the row that refuses them, whatever is asked for and
//! whatever the room, and nothing is written. Some are still accepted, or are sealed.

use crate::cases::damaged;
use crate::support::questions::COMMAND;
use crate::support::Bench;
use second::refusal::SEALED;
use second::section::Apart;

pub fn every_row(bench: &mut Bench) {
    damaged::every_kind(bench, asked);
}

fn asked(bench: &mut Bench, section: &[u8]) -> u8 {
    bench.ask_each(section);
    match bench.answer(&COMMAND, &Apart::of(section), &[]) {
        Err(row) if row != SEALED => row,
        _ => {
            bench.ask_everything(section);
            0
        }
    }
}
