//! Damaged sections: every question but the label gets the row that refuses them, whatever the room,
//! and nothing is written; the label is the house name. Some are still accepted, or are sealed.

use crate::cases::damaged;
use crate::support::house::DVB;
use crate::support::Bench;
use second::refusal::SEALED;
use second::section::Apart;

pub fn every_row(bench: &mut Bench) {
    damaged::every_kind(bench, asked);
}

fn asked(bench: &mut Bench, section: &[u8]) -> u8 {
    bench.ask_house(section);
    match bench.house_answer(&DVB, &Apart::of(section)) {
        Err(row) if row != SEALED => row,
        _ => 0,
    }
}
