//! The typed readings of the archive: each writes the numbers of an answer into the lent output.

#[link(name = "timpanimist", kind = "static")]
extern "C" {
    fn timpanimist_command(section: *const u8, len: usize, out: *mut u64, room: usize) -> u64;
    fn timpanimist_insert_component(
        section: *const u8,
        len: usize,
        n: usize,
        out: *mut u64,
        room: usize,
    ) -> u64;
    fn timpanimist_schedule_event(
        section: *const u8,
        len: usize,
        n: usize,
        out: *mut u64,
        room: usize,
    ) -> u64;
    fn timpanimist_event_component(
        section: *const u8,
        len: usize,
        n: usize,
        m: usize,
        out: *mut u64,
        room: usize,
    ) -> u64;
    fn timpanimist_private_byte(
        section: *const u8,
        len: usize,
        n: usize,
        out: *mut u64,
        room: usize,
    ) -> u64;
    fn timpanimist_known_count(section: *const u8, len: usize, out: *mut u64, room: usize) -> u64;
    fn timpanimist_known_descriptor(
        section: *const u8,
        len: usize,
        n: usize,
        out: *mut u64,
        room: usize,
    ) -> u64;
    fn timpanimist_dtmf_char(
        section: *const u8,
        len: usize,
        n: usize,
        m: usize,
        out: *mut u64,
        room: usize,
    ) -> u64;
    fn timpanimist_segmentation_component(
        section: *const u8,
        len: usize,
        n: usize,
        m: usize,
        out: *mut u64,
        room: usize,
    ) -> u64;
    fn timpanimist_audio_component(
        section: *const u8,
        len: usize,
        n: usize,
        m: usize,
        out: *mut u64,
        room: usize,
    ) -> u64;
    fn timpanimist_upid(
        section: *const u8,
        len: usize,
        n: usize,
        out: *mut u64,
        room: usize,
    ) -> u64;
}

// As in every call of this module's parent, the pointer and the length are those of one live slice,
// and the lent output overlaps no other.

pub fn command(section: &mut [u8], out: &mut [u64]) -> u64 {
    let (from, to) = (section.as_mut_ptr(), out.as_mut_ptr());
    unsafe { timpanimist_command(from, section.len(), to, out.len()) }
}

pub fn insert_component(section: &mut [u8], n: usize, out: &mut [u64]) -> u64 {
    let (from, to) = (section.as_mut_ptr(), out.as_mut_ptr());
    unsafe { timpanimist_insert_component(from, section.len(), n, to, out.len()) }
}

pub fn schedule_event(section: &mut [u8], n: usize, out: &mut [u64]) -> u64 {
    let (from, to) = (section.as_mut_ptr(), out.as_mut_ptr());
    unsafe { timpanimist_schedule_event(from, section.len(), n, to, out.len()) }
}

pub fn event_component(section: &mut [u8], n: usize, m: usize, out: &mut [u64]) -> u64 {
    let (from, to) = (section.as_mut_ptr(), out.as_mut_ptr());
    unsafe { timpanimist_event_component(from, section.len(), n, m, to, out.len()) }
}

pub fn private_byte(section: &mut [u8], n: usize, out: &mut [u64]) -> u64 {
    let (from, to) = (section.as_mut_ptr(), out.as_mut_ptr());
    unsafe { timpanimist_private_byte(from, section.len(), n, to, out.len()) }
}

pub fn known_count(section: &mut [u8], out: &mut [u64]) -> u64 {
    let (from, to) = (section.as_mut_ptr(), out.as_mut_ptr());
    unsafe { timpanimist_known_count(from, section.len(), to, out.len()) }
}

pub fn known_descriptor(section: &mut [u8], n: usize, out: &mut [u64]) -> u64 {
    let (from, to) = (section.as_mut_ptr(), out.as_mut_ptr());
    unsafe { timpanimist_known_descriptor(from, section.len(), n, to, out.len()) }
}

pub fn dtmf_char(section: &mut [u8], n: usize, m: usize, out: &mut [u64]) -> u64 {
    let (from, to) = (section.as_mut_ptr(), out.as_mut_ptr());
    unsafe { timpanimist_dtmf_char(from, section.len(), n, m, to, out.len()) }
}

pub fn segmentation_component(section: &mut [u8], n: usize, m: usize, out: &mut [u64]) -> u64 {
    let (from, to) = (section.as_mut_ptr(), out.as_mut_ptr());
    unsafe { timpanimist_segmentation_component(from, section.len(), n, m, to, out.len()) }
}

pub fn audio_component(section: &mut [u8], n: usize, m: usize, out: &mut [u64]) -> u64 {
    let (from, to) = (section.as_mut_ptr(), out.as_mut_ptr());
    unsafe { timpanimist_audio_component(from, section.len(), n, m, to, out.len()) }
}

pub fn upid(section: &mut [u8], n: usize, out: &mut [u64]) -> u64 {
    let (from, to) = (section.as_mut_ptr(), out.as_mut_ptr());
    unsafe { timpanimist_upid(from, section.len(), n, to, out.len()) }
}
