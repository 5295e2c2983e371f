//! The proved library's functions, as its archive libtimpanimist.a offers them to C.
//! Inputs are taken as `&mut` so that a test can see whether the library leaves them alone.

pub mod house;
pub mod lines;
pub mod readings;

#[link(name = "timpanimist", kind = "static")]
extern "C" {
    fn timpanimist_crc32(bytes: *const u8, len: usize) -> u32;
    fn timpanimist_accept(section: *const u8, len: usize) -> u32;
    fn timpanimist_text_to_section(
        text: *const u8,
        text_len: usize,
        out: *mut u8,
        out_len: usize,
    ) -> u64;
    fn timpanimist_section_to_text(
        section: *const u8,
        section_len: usize,
        out: *mut u8,
        out_len: usize,
    ) -> u64;
    fn timpanimist_section_to_sheet(
        section: *const u8,
        section_len: usize,
        out: *mut u64,
        out_len: usize,
    ) -> u64;
    fn timpanimist_sheet_to_section(
        sheet: *const u64,
        sheet_len: usize,
        out: *mut u8,
        out_len: usize,
    ) -> u64;
    fn timpanimist_ticks_to_millis(ticks: u64) -> u64;
    fn timpanimist_clock_sum(a: u64, b: u64) -> u64;
    fn timpanimist_field_read(bytes: *const u8, len: usize, at: usize, width: usize) -> u64;
    fn timpanimist_field_write(
        bytes: *mut u8,
        len: usize,
        at: usize,
        width: usize,
        value: u64,
    ) -> bool;
}

/// A refusal is answered as this plus its number.
pub const REFUSED: u64 = 1 << 63;

// In every call below, the pointer and the length are those of one live slice, and a slice that
// is lent for writing overlaps no other.

pub fn crc32(bytes: &mut [u8]) -> u32 {
    unsafe { timpanimist_crc32(bytes.as_mut_ptr(), bytes.len()) }
}

/// 0 for accepted, otherwise the number of the refusal.
pub fn accept(section: &mut [u8]) -> u32 {
    unsafe { timpanimist_accept(section.as_mut_ptr(), section.len()) }
}

pub fn text_to_section(text: &mut [u8], out: &mut [u8]) -> u64 {
    let (from, to) = (text.as_mut_ptr(), out.as_mut_ptr());
    unsafe { timpanimist_text_to_section(from, text.len(), to, out.len()) }
}

pub fn section_to_text(section: &mut [u8], out: &mut [u8]) -> u64 {
    let (from, to) = (section.as_mut_ptr(), out.as_mut_ptr());
    unsafe { timpanimist_section_to_text(from, section.len(), to, out.len()) }
}

pub fn section_to_sheet(section: &mut [u8], out: &mut [u64]) -> u64 {
    let (from, to) = (section.as_mut_ptr(), out.as_mut_ptr());
    unsafe { timpanimist_section_to_sheet(from, section.len(), to, out.len()) }
}

pub fn sheet_to_section(sheet: &mut [u64], out: &mut [u8]) -> u64 {
    let (from, to) = (sheet.as_mut_ptr(), out.as_mut_ptr());
    unsafe { timpanimist_sheet_to_section(from, sheet.len(), to, out.len()) }
}

pub fn ticks_to_millis(ticks: u64) -> u64 {
    unsafe { timpanimist_ticks_to_millis(ticks) }
}

pub fn clock_sum(a: u64, b: u64) -> u64 {
    unsafe { timpanimist_clock_sum(a, b) }
}

pub fn field_read(bytes: &mut [u8], at: usize, width: usize) -> u64 {
    unsafe { timpanimist_field_read(bytes.as_mut_ptr(), bytes.len(), at, width) }
}

pub fn field_write(bytes: &mut [u8], at: usize, width: usize, value: u64) -> bool {
    unsafe { timpanimist_field_write(bytes.as_mut_ptr(), bytes.len(), at, width, value) }
}
