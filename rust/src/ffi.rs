//! The archive's functions and a safe function around each. All unsafe code of this crate is here.
//!
//! Why the calls are sound, for all of them: the exports (`crates/exports*/src`) ask nothing of
//! their caller but that each pointer and count name one live list, and that a list which is written
//! overlaps no other. Each pointer and count below are those of one slice, which is borrowed for the
//! whole call; a slice that is written comes by `&mut`, which overlaps nothing. No export keeps a pointer,
//! unwinds or has a state. `tests/declarations.rs` holds the declarations against the exports' source.

// A declaration reads as a line, as in include/timpanimist.h.
#[rustfmt::skip]
extern "C" {
    fn timpanimist_crc32(bytes: *const u8, bytes_len: usize) -> u32;
    fn timpanimist_text_to_section(text: *const u8, text_len: usize, out: *mut u8, room: usize) -> u64;
    fn timpanimist_section_to_text(section: *const u8, section_len: usize, out: *mut u8, room: usize) -> u64;
    fn timpanimist_accept(section: *const u8, section_len: usize) -> u32;
    fn timpanimist_section_to_sheet(section: *const u8, section_len: usize, out: *mut u64, room: usize) -> u64;
    fn timpanimist_sheet_to_section(sheet: *const u64, sheet_len: usize, out: *mut u8, room: usize) -> u64;
    fn timpanimist_command(section: *const u8, section_len: usize, out: *mut u64, room: usize) -> u64;
    fn timpanimist_insert_component(section: *const u8, section_len: usize, n: usize, out: *mut u64,
        room: usize) -> u64;
    fn timpanimist_schedule_event(section: *const u8, section_len: usize, n: usize, out: *mut u64,
        room: usize) -> u64;
    fn timpanimist_event_component(section: *const u8, section_len: usize, n: usize, m: usize,
        out: *mut u64, room: usize) -> u64;
    fn timpanimist_private_byte(section: *const u8, section_len: usize, n: usize, out: *mut u64, room: usize) -> u64;
    fn timpanimist_known_count(section: *const u8, section_len: usize, out: *mut u64, room: usize) -> u64;
    fn timpanimist_known_descriptor(section: *const u8, section_len: usize, n: usize, out: *mut u64,
        room: usize) -> u64;
    fn timpanimist_dtmf_char(section: *const u8, section_len: usize, n: usize, m: usize,
        out: *mut u64, room: usize) -> u64;
    fn timpanimist_segmentation_component(section: *const u8, section_len: usize, n: usize,
        m: usize, out: *mut u64, room: usize) -> u64;
    fn timpanimist_audio_component(section: *const u8, section_len: usize, n: usize, m: usize,
        out: *mut u64, room: usize) -> u64;
    fn timpanimist_upid(section: *const u8, section_len: usize, n: usize, out: *mut u64, room: usize) -> u64;
    fn timpanimist_break(section: *const u8, section_len: usize, out: *mut u64, room: usize) -> u64;
    fn timpanimist_effective_time(section: *const u8, section_len: usize, out: *mut u64, room: usize) -> u64;
    fn timpanimist_dvb(section: *const u8, section_len: usize, out: *mut u64, room: usize) -> u64;
    fn timpanimist_dash_duration(section: *const u8, section_len: usize, out: *mut u64, room: usize) -> u64;
    fn timpanimist_bill_label(section: *const u8, section_len: usize, house: *const u8,
        house_len: usize, out: *mut u64, room: usize) -> u64;
    fn timpanimist_line(text: *const u8, text_len: usize, out: *mut u8, room: usize) -> u64;
    fn timpanimist_lines(held: u64, input: *const u8, input_len: usize, carry: *mut u8,
        carry_len: usize, out: *mut u8, room: usize, turn: *mut u64, turn_len: usize) -> u64;
    fn timpanimist_last_line(held: u64, carry: *const u8, carry_len: usize, out: *mut u8, room: usize) -> u64;
    fn timpanimist_ticks_to_millis(t: u64) -> u64;
    fn timpanimist_clock_sum(a: u64, b: u64) -> u64;
    fn timpanimist_field_read(bytes: *const u8, bytes_len: usize, at: usize, width: usize) -> u64;
    fn timpanimist_field_write(bytes: *mut u8, bytes_len: usize, at: usize, width: usize, value: u64) -> bool;
}

pub fn crc32(bytes: &[u8]) -> u32 {
    // SAFETY: one slice, which is only read.
    unsafe { timpanimist_crc32(bytes.as_ptr(), bytes.len()) }
}

/// 0 for accepted, otherwise the number of the refusal.
pub fn accept(section: &[u8]) -> u32 {
    // SAFETY: one slice, which is only read.
    unsafe { timpanimist_accept(section.as_ptr(), section.len()) }
}

/// Questions that take a list, and numbers where they name some, and write their answer to a list.
macro_rules! questions {
    ($($name:ident is $export:ident($from:ty $(, $number:ident)*) -> $to:ty;)*) => {
        $(pub fn $name(from: &[$from] $(, $number: usize)*, out: &mut [$to]) -> u64 {
            let (list, len) = (from.as_ptr(), from.len());
            // SAFETY: two slices. `out` comes by `&mut`, so it does not overlap `from`.
            unsafe { $export(list, len $(, $number)*, out.as_mut_ptr(), out.len()) }
        })*
    };
}

questions! {
    text_to_section is timpanimist_text_to_section(u8) -> u8;
    section_to_text is timpanimist_section_to_text(u8) -> u8;
    section_to_sheet is timpanimist_section_to_sheet(u8) -> u64;
    sheet_to_section is timpanimist_sheet_to_section(u64) -> u8;
    command is timpanimist_command(u8) -> u64;
    insert_component is timpanimist_insert_component(u8, n) -> u64;
    schedule_event is timpanimist_schedule_event(u8, n) -> u64;
    event_component is timpanimist_event_component(u8, n, m) -> u64;
    private_byte is timpanimist_private_byte(u8, n) -> u64;
    known_count is timpanimist_known_count(u8) -> u64;
    known_descriptor is timpanimist_known_descriptor(u8, n) -> u64;
    dtmf_char is timpanimist_dtmf_char(u8, n, m) -> u64;
    segmentation_component is timpanimist_segmentation_component(u8, n, m) -> u64;
    audio_component is timpanimist_audio_component(u8, n, m) -> u64;
    upid is timpanimist_upid(u8, n) -> u64;
    break_answer is timpanimist_break(u8) -> u64;
    effective_time is timpanimist_effective_time(u8) -> u64;
    dvb is timpanimist_dvb(u8) -> u64;
    dash_duration is timpanimist_dash_duration(u8) -> u64;
    line is timpanimist_line(u8) -> u8;
}

pub fn bill_label(section: &[u8], house: &[u8], out: &mut [u64]) -> u64 {
    let (list, len) = (section.as_ptr(), section.len());
    let (name, name_len) = (house.as_ptr(), house.len());
    // SAFETY: three slices. The first two are only read and may overlap; `out` comes by `&mut`.
    unsafe { timpanimist_bill_label(list, len, name, name_len, out.as_mut_ptr(), out.len()) }
}

pub fn lines(held: u64, input: &[u8], carry: &mut [u8], out: &mut [u8], turn: &mut [u64]) -> u64 {
    // SAFETY: four slices. The three that are written come by `&mut`, so no two overlap.
    unsafe {
        timpanimist_lines(
            held,
            input.as_ptr(),
            input.len(),
            carry.as_mut_ptr(),
            carry.len(),
            out.as_mut_ptr(),
            out.len(),
            turn.as_mut_ptr(),
            turn.len(),
        )
    }
}

pub fn last_line(held: u64, carry: &[u8], out: &mut [u8]) -> u64 {
    let (kept, len) = (carry.as_ptr(), carry.len());
    // SAFETY: two slices. `out` comes by `&mut`, so it does not overlap `carry`.
    unsafe { timpanimist_last_line(held, kept, len, out.as_mut_ptr(), out.len()) }
}

pub fn ticks_to_millis(ticks: u64) -> u64 {
    // SAFETY: a number only.
    unsafe { timpanimist_ticks_to_millis(ticks) }
}

pub fn clock_sum(a: u64, b: u64) -> u64 {
    // SAFETY: numbers only.
    unsafe { timpanimist_clock_sum(a, b) }
}

pub fn field_read(bytes: &[u8], at: usize, width: usize) -> u64 {
    // SAFETY: one slice, which is only read; a field past its end is answered 0.
    unsafe { timpanimist_field_read(bytes.as_ptr(), bytes.len(), at, width) }
}

pub fn field_write(bytes: &mut [u8], at: usize, width: usize, value: u64) -> bool {
    // SAFETY: one slice by `&mut`; a field past its end is not written. Its `bool` is 0 or 1 in the
    // low byte, as the C convention has it.
    unsafe { timpanimist_field_write(bytes.as_mut_ptr(), bytes.len(), at, width, value) }
}
