//! The samples that the papers print.

use crate::cases::published::{damaged, whole};
use crate::support::built::with_length_and_crc;
use crate::support::Bench;
use second::refusal::{CRC, SIZE, TABLE};
use second::text::text_to_section;

pub fn samples(bench: &mut Bench) {
    for text in whole() {
        let section = text_to_section(text.as_bytes(), 4096).unwrap();
        assert_eq!(bench.accept(&section), 0, "{text}");
    }
    for text in damaged() {
        let section = text_to_section(text.as_bytes(), 4096).unwrap();
        let row = bench.accept(&section);
        assert!([TABLE, SIZE, CRC].contains(&row), "{text}: {row}");
        bench.accept(&with_length_and_crc(&section));
    }
}
