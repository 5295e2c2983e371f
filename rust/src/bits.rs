//! Fields of bits at any place, most significant bit first.

use crate::ffi;

/// The field of `width` bits at bit `at`; 0 where it is wider than 48 bits or runs past the end.
///
/// ```
/// assert_eq!(timpanimist::field_read(&[0xFC, 0x30, 0x34], 12, 12), 0x034);
/// ```
pub fn field_read(bytes: &[u8], at: usize, width: usize) -> u64 {
    ffi::field_read(bytes, at, width)
}

/// Gives that field the value, and says whether it did: not where the field is wider than 48 bits or
/// runs past the end, nor where the value does not fit its bits. Then nothing is written.
///
/// ```
/// let mut bytes = [0xFC, 0x30, 0x34];
/// assert!(timpanimist::field_write(&mut bytes, 12, 12, 0x035));
/// assert!(!timpanimist::field_write(&mut bytes, 12, 12, 0x1000));
/// assert_eq!(bytes, [0xFC, 0x30, 0x35]);
/// ```
pub fn field_write(bytes: &mut [u8], at: usize, width: usize, value: u64) -> bool {
    ffi::field_write(bytes, at, width, value)
}
