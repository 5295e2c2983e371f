//! The section CRC (ISO/IEC 13818-1), done as long division of polynomials over a list of bits.

/// x^32 + x^26 + x^23 + x^22 + x^16 + x^12 + x^11 + x^10 + x^8 + x^7 + x^5 + x^4 + x^2 + x + 1.
const DIVISOR: u64 = 0x1_04C1_1DB7;

/// The CRC of the bytes: most significant bit first, start 0xFFFFFFFF, no final inversion.
pub fn crc32(bytes: &[u8]) -> u32 {
    // The message, most significant bit first, followed by 32 zeros.
    let mut dividend: Vec<bool> = Vec::with_capacity(8 * bytes.len() + 32);
    for byte in bytes {
        dividend.extend((0..8).rev().map(|place| byte >> place & 1 == 1));
    }
    let message_bits = dividend.len();
    dividend.extend([false; 32]);

    // Starting from 0xFFFFFFFF is the same as turning over the first 32 bits.
    for bit in &mut dividend[..32] {
        *bit = !*bit;
    }

    // Wherever a one stands in front, take the divisor away from there.
    let divisor: [bool; 33] = std::array::from_fn(|place| DIVISOR >> (32 - place) & 1 == 1);
    for front in 0..message_bits {
        let is_one = dividend[front];
        let below = &mut dividend[front..front + 33];
        for (bit, taken) in below.iter_mut().zip(&divisor) {
            *bit ^= taken & is_one;
        }
    }

    // What is left in the last 32 places is the remainder.
    let remainder = &dividend[message_bits..];
    remainder
        .iter()
        .fold(0, |number, bit| number << 1 | u32::from(*bit))
}

#[cfg(test)]
mod tests {
    use super::*;
    use crate::samples::{RESTORED_TEXT_OF_003, TEXT_OF_004};
    use crate::text::text_to_section;

    #[test]
    fn known_figures() {
        assert_eq!(crc32(b""), 0xFFFF_FFFF);
        assert_eq!(crc32(b"123456789"), 0x0376_E6E7);
        assert_eq!(crc32(&[0xFF, 0xFF, 0xFF, 0xFF]), 0);
    }

    #[test]
    fn the_section_of_004_carries_its_own_crc() {
        let section = text_to_section(TEXT_OF_004.as_bytes(), 55).unwrap();
        assert_eq!(crc32(&section[..51]), 922_414_497);
        assert_eq!(section[51..], 922_414_497u32.to_be_bytes());
        assert_eq!(crc32(&section), 0);
    }

    #[test]
    fn the_restored_first_text_of_003_carries_its_own_crc() {
        let section = text_to_section(RESTORED_TEXT_OF_003.as_bytes(), 36).unwrap();
        assert_eq!(crc32(&section), 0);
    }

    #[test]
    fn the_crc_put_at_the_end_makes_zero() {
        for length in 0..40u8 {
            let mut bytes: Vec<u8> = (0..length).map(|n| n.wrapping_mul(37) ^ 0x5A).collect();
            bytes.extend(crc32(&bytes).to_be_bytes());
            assert_eq!(crc32(&bytes), 0);
        }
    }

    #[test]
    fn one_bit_turned_over_changes_it() {
        let section = text_to_section(TEXT_OF_004.as_bytes(), 55).unwrap();
        for place in 0..8 * section.len() {
            let mut other = section.clone();
            other[place / 8] ^= 0x80 >> (place % 8);
            assert_ne!(crc32(&other), 0, "bit {place}");
        }
    }
}
