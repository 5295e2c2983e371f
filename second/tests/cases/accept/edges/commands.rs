//! Row 8: commands beside the CRC, and lengths left open.

use super::expect;
use crate::support::built::{cut, section_with_length, with_crc, Command, Descriptor, Size};
use crate::support::Bench;
use second::refusal::{COMMAND, LOOP, SHORT};

/// Commands that end before the CRC, at it, and behind it.
pub fn at_the_crc(bench: &mut Bench) {
    let command = Command::any(&mut bench.random, Size::Short);
    let length = command.part.count();
    let open = command.ends_by_itself && bench.random.once_in(2);
    let whole = section_with_length(&mut bench.random, command, open, vec![], &[]).bytes;
    let end = 14 + length;
    assert_eq!(whole.len(), end + 2 + 4);
    let cuts = [(6, 0), (5, LOOP), (4, LOOP), (3, COMMAND)];
    for (behind, row) in cuts {
        let count = end + behind;
        let row = if count < 20 { SHORT } else { row };
        expect(bench, &cut(&whole, count), row);
    }
    // The four bytes of the CRC are no part of the command, whatever its length says.
    for more in 1..=6 {
        let mut other = whole.clone();
        let stated = (length + more) as u16;
        other[11] = other[11] & 0xF0 | (stated >> 8) as u8;
        other[12] = stated as u8;
        let row = bench.accept(&with_crc(&other));
        assert!([COMMAND, LOOP].contains(&row), "{row}");
        if more > 2 {
            assert_eq!(row, COMMAND);
        }
    }
}

/// 0xFFF is no length: the grammar finds it, or it is refused.
pub fn open_lengths(bench: &mut Bench) {
    let random = &mut bench.random;
    let by_themselves = [
        Command::null(),
        Command::bandwidth_reservation(),
        Command::time_signal(random),
        Command::insert(random, Size::Short),
        Command::schedule(random, Size::Short),
    ];
    for command in by_themselves {
        for open in [false, true] {
            let descriptors = vec![Descriptor::any(&mut bench.random, Size::Short)];
            let random = &mut bench.random;
            let built = section_with_length(random, command.clone(), open, descriptors, &[]);
            expect(bench, &built.bytes, 0);
        }
    }
    let random = &mut bench.random;
    let others = [
        Command::private(random, Size::Short),
        Command::unknown(random, Size::Short),
        Command::private(random, Size::Long),
        Command::unknown(random, Size::Long),
    ];
    for command in others {
        let random = &mut bench.random;
        let built = section_with_length(random, command, true, vec![], &[]);
        expect(bench, &built.bytes, COMMAND);
    }
}
