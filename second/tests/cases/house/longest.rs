//! Sections of 4,096 bytes, and what decides an answer behind more descriptors than a byte can count.

use crate::support::built::{
    filled_section, grown, longest_section, sealed, section, Command, Descriptor, Segmentation,
    Writer, LONGEST,
};
use crate::support::house::{BREAK, DASH_DURATION};
use crate::support::Bench;
use second::section::Apart;

pub fn all(bench: &mut Bench) {
    for _ in 0..20 {
        let built = filled_section(&mut bench.random);
        bench.ask_house(&built.bytes);
        let built = longest_section(&mut bench.random);
        bench.ask_house(&built.bytes);
    }
    let built = sealed(&mut bench.random, LONGEST - 17);
    bench.ask_house(&built.bytes);
    behind_many(bench);
}

/// The one descriptor that opens the break, measures it and has the label stands behind 500 others,
/// and behind the program that is longest of all.
fn behind_many(bench: &mut Bench) {
    let mut program = Segmentation::of_type(&mut bench.random, 0x10);
    (program.cancelled, program.duration, program.upid) = (false, Some(9), 0);
    let last = Segmentation {
        cancelled: false,
        components: Some(2),
        duration: Some(8),
        upid: 8,
        type_id: 0x34,
        behind: 2,
    };
    for open_end in [false, true] {
        let random = &mut bench.random;
        let mut list: Vec<Writer> = (0..500).map(|_| Descriptor::audio(random, 0)).collect();
        list.extend([program.descriptor(random), last.descriptor(random)]);
        let command = Command::time_signal(random);
        let mut section = section(random, command, list, &[]).bytes;
        if open_end {
            let more = bench.random.bytes(LONGEST - section.len());
            section = grown(&section, &more);
        }
        bench.ask_house(&section);
        let section = Apart::of(&section);
        assert_eq!(bench.house_answer(&BREAK, &section), Ok(vec![1, 8]));
        let lasts = bench.house_answer(&DASH_DURATION, &section);
        assert_eq!(lasts, Ok(vec![1, 9]));
        let label = bench.bill_label(&section, b"");
        assert_eq!((label[0], label[2]), (0, 8));
    }
}
