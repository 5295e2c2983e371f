//! Bytes as hexadecimal digits and back, for the command and for reports.

/// Two lower-case digits a byte, nothing between them.
pub fn to_hex(bytes: &[u8]) -> String {
    bytes.iter().map(|byte| format!("{byte:02x}")).collect()
}

/// The bytes of a list of digit pairs, upper or lower case, with or without `0x` in front.
pub fn from_hex(text: &str) -> Option<Vec<u8>> {
    let digits: Option<Vec<u8>> = text
        .strip_prefix("0x")
        .unwrap_or(text)
        .chars()
        .map(|c| c.to_digit(16).map(|digit| digit as u8))
        .collect();
    let digits = digits?;
    if !digits.len().is_multiple_of(2) {
        return None;
    }
    Some(
        digits
            .chunks(2)
            .map(|pair| 16 * pair[0] + pair[1])
            .collect(),
    )
}

#[cfg(test)]
mod tests {
    use super::*;

    #[test]
    fn two_digits_make_a_byte() {
        assert_eq!(to_hex(&[]), "");
        assert_eq!(to_hex(&[0xFC, 0x30, 0x00]), "fc3000");
        assert_eq!(from_hex(""), Some(vec![]));
        assert_eq!(from_hex("fc3000"), Some(vec![0xFC, 0x30, 0x00]));
        assert_eq!(from_hex("0xFC30"), Some(vec![0xFC, 0x30]));
    }

    #[test]
    fn anything_else_is_not_hex() {
        assert_eq!(from_hex("f"), None);
        assert_eq!(from_hex("fg"), None);
        assert_eq!(from_hex("f c0"), None);
        assert_eq!(from_hex("é0"), None);
    }
}
