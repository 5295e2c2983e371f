//! The line functions of the archive: the answer to one text, a turn over a stream of lines, and the
//! end of a stream.

#[link(name = "timpanimist", kind = "static")]
extern "C" {
    fn timpanimist_line(text: *const u8, text_len: usize, out: *mut u8, room: usize) -> u64;
    fn timpanimist_lines(
        held: u64,
        input: *const u8,
        input_len: usize,
        carry: *mut u8,
        carry_len: usize,
        out: *mut u8,
        room: usize,
        turn: *mut u64,
        turn_len: usize,
    ) -> u64;
    fn timpanimist_last_line(
        held: u64,
        carry: *const u8,
        carry_len: usize,
        out: *mut u8,
        room: usize,
    ) -> u64;
}

// As in every call of this module's parent, the pointer and the length are those of one live slice,
// and a slice that is lent for writing overlaps no other.

pub fn line(text: &mut [u8], out: &mut [u8]) -> u64 {
    let (from, to) = (text.as_mut_ptr(), out.as_mut_ptr());
    unsafe { timpanimist_line(from, text.len(), to, out.len()) }
}

pub fn lines(
    held: u64,
    input: &mut [u8],
    carry: &mut [u8],
    out: &mut [u8],
    turn: &mut [u64],
) -> u64 {
    let (from, from_len) = (input.as_mut_ptr(), input.len());
    let (kept, kept_len) = (carry.as_mut_ptr(), carry.len());
    let (to, room) = (out.as_mut_ptr(), out.len());
    let (back, back_len) = (turn.as_mut_ptr(), turn.len());
    unsafe {
        timpanimist_lines(
            held, from, from_len, kept, kept_len, to, room, back, back_len,
        )
    }
}

pub fn last_line(held: u64, carry: &mut [u8], out: &mut [u8]) -> u64 {
    let (from, to) = (carry.as_mut_ptr(), out.as_mut_ptr());
    unsafe { timpanimist_last_line(held, from, carry.len(), to, out.len()) }
}
