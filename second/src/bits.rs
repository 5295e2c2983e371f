//! Fields of bits in a list of bytes, read and written one bit at a time.
//! Bit 0 is the most significant bit of byte 0.

/// The widest field there is.
pub const WIDEST: usize = 48;

/// The number made by `width` bits from bit `at` on, most significant first; 0 where the field
/// is too wide or runs past the end.
pub fn read_field(bytes: &[u8], at: usize, width: usize) -> u64 {
    if width > WIDEST || !is_within(bytes, at, width) {
        return 0;
    }
    let mut number = 0;
    for place in at..at + width {
        number = 2 * number + u64::from(bit(bytes, place));
    }
    number
}

/// Writes `value` into the `width` bits from bit `at` on and says true; says false and changes
/// nothing where the field is too wide, runs past the end or cannot hold the value.
pub fn write_field(bytes: &mut [u8], at: usize, width: usize, value: u64) -> bool {
    if width > WIDEST || !is_within(bytes, at, width) || value >= 1 << width {
        return false;
    }
    let mut rest = value;
    for place in (at..at + width).rev() {
        set_bit(bytes, place, rest % 2 == 1);
        rest /= 2;
    }
    true
}

fn is_within(bytes: &[u8], at: usize, width: usize) -> bool {
    at as u128 + width as u128 <= 8 * bytes.len() as u128
}

fn bit(bytes: &[u8], place: usize) -> bool {
    bytes[place / 8] & mask(place) != 0
}

fn set_bit(bytes: &mut [u8], place: usize, on: bool) {
    if on {
        bytes[place / 8] |= mask(place);
    } else {
        bytes[place / 8] &= !mask(place);
    }
}

fn mask(place: usize) -> u8 {
    0b1000_0000 >> (place % 8)
}

#[cfg(test)]
mod tests {
    use super::*;

    #[test]
    fn bits_count_from_the_most_significant() {
        assert_eq!(read_field(&[0b1000_0000], 0, 1), 1);
        assert_eq!(read_field(&[0b1000_0000], 1, 7), 0);
        assert_eq!(read_field(&[0b0000_0001], 7, 1), 1);
        assert_eq!(read_field(&[0x12, 0x34, 0x56], 4, 12), 0x234);
        assert_eq!(read_field(&[0xFF; 6], 0, 48), (1 << 48) - 1);
        assert_eq!(
            read_field(&[0x01, 0xFF, 0xFF, 0xFF, 0xFF], 7, 33),
            0x1_FFFF_FFFF
        );
    }

    #[test]
    fn the_head_of_004() {
        let head = [0xFC, 0x30, 0x34, 0x00];
        assert_eq!(read_field(&head, 0, 8), 252);
        assert_eq!(read_field(&head, 8, 1), 0);
        assert_eq!(read_field(&head, 9, 1), 0);
        assert_eq!(read_field(&head, 10, 2), 3);
        assert_eq!(read_field(&head, 12, 12), 52);
        assert_eq!(read_field(&head, 24, 8), 0);
    }

    #[test]
    fn what_cannot_be_read_reads_as_zero() {
        assert_eq!(read_field(&[0xFF; 8], 0, 49), 0);
        assert_eq!(read_field(&[0xFF; 8], 0, 64), 0);
        assert_eq!(read_field(&[0xFF], 1, 8), 0);
        assert_eq!(read_field(&[0xFF], 8, 1), 0);
        assert_eq!(read_field(&[0xFF], usize::MAX, 1), 0);
        assert_eq!(read_field(&[0xFF], usize::MAX, usize::MAX), 0);
        assert_eq!(read_field(&[0xFF], 0, 0), 0);
        assert_eq!(read_field(&[], 0, 1), 0);
    }

    #[test]
    fn writing_touches_its_own_bits_only() {
        let mut bytes = [0xFF, 0xFF, 0xFF];
        assert!(write_field(&mut bytes, 4, 12, 0x234));
        assert_eq!(bytes, [0xF2, 0x34, 0xFF]);
        let mut bytes = [0x00, 0x00];
        assert!(write_field(&mut bytes, 7, 2, 3));
        assert_eq!(bytes, [0x01, 0x80]);
    }

    #[test]
    fn what_cannot_be_written_changes_nothing() {
        let mut bytes = [0xA5; 8];
        assert!(!write_field(&mut bytes, 0, 49, 0));
        assert!(!write_field(&mut bytes, 0, 64, 0));
        assert!(!write_field(&mut bytes, 0, 4, 16));
        assert!(!write_field(&mut bytes, 0, 48, 1 << 48));
        assert!(!write_field(&mut bytes, 57, 8, 0));
        assert!(!write_field(&mut bytes, usize::MAX, 1, 0));
        assert!(!write_field(&mut bytes, 1, usize::MAX, 0));
        assert_eq!(bytes, [0xA5; 8]);
    }

    #[test]
    fn a_field_of_no_bits_holds_only_zero() {
        let mut bytes = [0xA5];
        assert!(write_field(&mut bytes, 0, 0, 0));
        assert!(write_field(&mut bytes, 8, 0, 0));
        assert!(!write_field(&mut bytes, 9, 0, 0));
        assert!(!write_field(&mut bytes, 0, 0, 1));
        assert_eq!(bytes, [0xA5]);
    }

    #[test]
    fn what_is_written_is_read_back() {
        for width in 0..=48 {
            for at in 0..=16 {
                let mut bytes = [0x5A; 8];
                let value = 0x9E37_79B9_7F4A_7C15 % (1 << width);
                assert!(write_field(&mut bytes, at, width, value));
                assert_eq!(read_field(&bytes, at, width), value);
            }
        }
    }
}
