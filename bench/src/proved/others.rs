//! The exported functions that are not timed, called for the stack that they take.

use crate::cue::{Cue, Lent, LONGEST_TEXT};
use crate::jobs::Program;

/// Functions on a section and some numbers, declared and called with each number 0.
macro_rules! readings {
    ($($function:ident($($number:ident),*);)*) => {
        extern "C" {
            $(fn $function(
                section: *const u8, len: usize, $($number: usize,)* out: *mut u64, room: usize,
            ) -> u64;)*
        }

        fn readings() -> Vec<Program> {
            vec![$(Program::new(|cue, lent| {
                let (about, to) = (&cue.section, &mut lent.numbers);
                $(let $number = 0;)*
                unsafe {
                    $function(about.as_ptr(), about.len(), $($number,)* to.as_mut_ptr(), to.len())
                }
            })),*]
        }
    };
}

readings! {
    timpanimist_known_count();
    timpanimist_dvb();
    timpanimist_insert_component(n);
    timpanimist_schedule_event(n);
    timpanimist_event_component(n, m);
    timpanimist_private_byte(n);
    timpanimist_dtmf_char(n, m);
    timpanimist_segmentation_component(n, m);
    timpanimist_audio_component(n, m);
    timpanimist_upid(n);
}

extern "C" {
    fn timpanimist_bill_label(
        section: *const u8,
        len: usize,
        house: *const u8,
        house_len: usize,
        out: *mut u64,
        room: usize,
    ) -> u64;
    fn timpanimist_ticks_to_millis(ticks: u64) -> u64;
    fn timpanimist_clock_sum(a: u64, b: u64) -> u64;
    fn timpanimist_field_read(bytes: *const u8, len: usize, at: usize, width: usize) -> u64;
    fn timpanimist_field_write(
        bytes: *mut u8,
        len: usize,
        at: usize,
        width: usize,
        value: u64,
    ) -> bool;
}

// In every call below, a pointer and the length behind it are those of one live slice.

fn bill_label(cue: &Cue, lent: &mut Lent) -> u64 {
    let (about, house, to) = (&cue.section, b"House", &mut lent.numbers);
    let (room, to) = (to.len(), to.as_mut_ptr());
    unsafe {
        timpanimist_bill_label(
            about.as_ptr(),
            about.len(),
            house.as_ptr(),
            house.len(),
            to,
            room,
        )
    }
}

fn clocks(cue: &Cue, _: &mut Lent) -> u64 {
    let ticks = cue.number as u64;
    unsafe { timpanimist_ticks_to_millis(ticks) + timpanimist_clock_sum(ticks, ticks) }
}

/// Bits at the front of the section, and the last ones.
fn fields(cue: &Cue, lent: &mut Lent) -> u64 {
    let (from, to) = (&cue.section, &mut lent.bytes[..LONGEST_TEXT]);
    unsafe {
        let read = timpanimist_field_read(from.as_ptr(), from.len(), 3, 48);
        timpanimist_field_write(to.as_mut_ptr(), to.len(), 3, 48, read);
        timpanimist_field_read(
            from.as_ptr(),
            from.len(),
            (8 * from.len()).saturating_sub(5),
            5,
        )
    }
}

pub fn all() -> Vec<Program> {
    let mut all = readings();
    all.extend([
        Program::new(bill_label),
        Program::new(clocks),
        Program::new(fields),
    ]);
    all
}
