//! The house answers of the archive: each writes the numbers of an answer into the lent output.

#[link(name = "timpanimist", kind = "static")]
extern "C" {
    fn timpanimist_break(section: *const u8, len: usize, out: *mut u64, room: usize) -> u64;
    fn timpanimist_dash_duration(section: *const u8, len: usize, out: *mut u64, room: usize)
        -> u64;
    fn timpanimist_effective_time(
        section: *const u8,
        len: usize,
        out: *mut u64,
        room: usize,
    ) -> u64;
    fn timpanimist_dvb(section: *const u8, len: usize, out: *mut u64, room: usize) -> u64;
    fn timpanimist_bill_label(
        section: *const u8,
        len: usize,
        house: *const u8,
        house_len: usize,
        out: *mut u64,
        room: usize,
    ) -> u64;
}

// As in every call of this module's parent, the pointer and the length are those of one live slice,
// and the lent output overlaps no other.

pub fn break_answer(section: &mut [u8], out: &mut [u64]) -> u64 {
    let (from, to) = (section.as_mut_ptr(), out.as_mut_ptr());
    unsafe { timpanimist_break(from, section.len(), to, out.len()) }
}

pub fn dash_duration(section: &mut [u8], out: &mut [u64]) -> u64 {
    let (from, to) = (section.as_mut_ptr(), out.as_mut_ptr());
    unsafe { timpanimist_dash_duration(from, section.len(), to, out.len()) }
}

pub fn effective_time(section: &mut [u8], out: &mut [u64]) -> u64 {
    let (from, to) = (section.as_mut_ptr(), out.as_mut_ptr());
    unsafe { timpanimist_effective_time(from, section.len(), to, out.len()) }
}

pub fn dvb(section: &mut [u8], out: &mut [u64]) -> u64 {
    let (from, to) = (section.as_mut_ptr(), out.as_mut_ptr());
    unsafe { timpanimist_dvb(from, section.len(), to, out.len()) }
}

pub fn bill_label(section: &mut [u8], house_name: &mut [u8], out: &mut [u64]) -> u64 {
    let (from, name, to) = (
        section.as_mut_ptr(),
        house_name.as_mut_ptr(),
        out.as_mut_ptr(),
    );
    let (len, name_len) = (section.len(), house_name.len());
    unsafe { timpanimist_bill_label(from, len, name, name_len, to, out.len()) }
}
