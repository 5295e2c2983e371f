//! Facts about the text reader and writer, from the papers and from RFC 4648 section 10.

use super::*;
use crate::samples::{FIRST_TEXT_OF_003, RESTORED_TEXT_OF_003, SECOND_TEXT_OF_003, TEXT_OF_004};

const PLENTY: usize = 10_000;

fn read(text: &str) -> Result<Vec<u8>, u8> {
    text_to_section(text.as_bytes(), PLENTY)
}

#[test]
fn the_pairs_of_rfc_4648() {
    let pairs = [
        ("", ""),
        ("f", "Zg=="),
        ("fo", "Zm8="),
        ("foo", "Zm9v"),
        ("foob", "Zm9vYg=="),
        ("fooba", "Zm9vYmE="),
        ("foobar", "Zm9vYmFy"),
    ];
    for (bytes, text) in pairs {
        assert_eq!(read(text), Ok(bytes.into()));
        assert_eq!(section_to_text(bytes.as_bytes(), PLENTY), Ok(text.into()));
    }
}

#[test]
fn the_text_of_004_is_a_section_of_55_bytes() {
    let section = read(TEXT_OF_004).unwrap();
    assert_eq!(section.len(), 55);
    assert_eq!(section[..4], [0xFC, 0x30, 0x34, 0x00]);
    assert_eq!(section_to_text(&section, PLENTY), Ok(TEXT_OF_004.into()));
}

#[test]
fn the_texts_of_003() {
    assert_eq!(FIRST_TEXT_OF_003.len(), 47);
    assert_eq!(read(FIRST_TEXT_OF_003), Err(TEXTLEN));

    let restored = FIRST_TEXT_OF_003.replace("AAAHAf", "AAAHAf+");
    assert_eq!(restored, RESTORED_TEXT_OF_003);
    assert_eq!(restored.len(), 48);
    assert_eq!(read(&restored).unwrap().len(), 36);

    let bytes = "Another test string for encoding to Base64 encoded binary.";
    assert_eq!(read(SECOND_TEXT_OF_003), Ok(bytes.into()));
}

#[test]
fn every_value_has_its_character() {
    for value in 0..64u8 {
        let text = [b'A', b'A', b'A', ALPHABET[usize::from(value)]];
        assert_eq!(text_to_section(&text, 3), Ok(vec![0, 0, value]));
        assert_eq!(section_to_text(&[0, 0, value], 4), Ok(text.to_vec()));
    }
}

#[test]
fn row_12_is_the_length() {
    for text in ["A", "AA", "AAA", "AAAAA", "=", "Zg=", "Zg==\n"] {
        assert_eq!(read(text), Err(TEXTLEN), "{text:?}");
    }
    assert_eq!(read(&"A".repeat(5460)), Ok(vec![0; 4095]));
    assert_eq!(read(&"A".repeat(5464)), Ok(vec![0; 4098]));
    assert_eq!(read(&"A".repeat(5468)), Err(TEXTLEN));
}

#[test]
fn row_13_is_a_character_out_of_place() {
    for text in [
        "A===", "AA=A", "====", "=AAA", "A=AA", "AA==AAAA", "AAA=AAAA",
    ] {
        assert_eq!(read(text), Err(TEXTCHAR), "{text:?}");
    }
    for text in ["AA A", "AAA\r", "AA-A", "AA_A", "AAA\0", "é==", "\0A=="] {
        assert_eq!(read(text), Err(TEXTCHAR), "{text:?}");
    }
    for byte in 0..=255u8 {
        let known = ALPHABET.contains(&byte);
        assert_eq!(text_to_section(&[byte, b'A', b'A', b'A'], 3).is_ok(), known);
    }
}

#[test]
fn row_14_is_a_spare_bit() {
    for text in ["AB==", "AC==", "AE==", "AI==", "AP==", "Zh=="] {
        assert_eq!(read(text), Err(TEXTBITS), "{text:?}");
    }
    for text in ["AAB=", "AAC=", "AAD=", "Zm9="] {
        assert_eq!(read(text), Err(TEXTBITS), "{text:?}");
    }
    assert_eq!(read("AQ=="), Ok(vec![1]));
    assert_eq!(read("AAE="), Ok(vec![0, 1]));
}

#[test]
fn the_rows_come_in_order() {
    assert_eq!(read("AB==="), Err(TEXTLEN));
    assert_eq!(read("-B=="), Err(TEXTCHAR));
    assert_eq!(read("AA==AB=="), Err(TEXTCHAR));
    assert_eq!(text_to_section(b"-AAA", 0), Err(TEXTCHAR));
    assert_eq!(text_to_section(b"AB==", 0), Err(TEXTBITS));
    assert_eq!(text_to_section(b"AA==", 0), Err(ROOM));
}

#[test]
fn room_is_enough_when_it_is_exact() {
    assert_eq!(text_to_section(b"", 0), Ok(vec![]));
    assert_eq!(text_to_section(b"Zm9v", 2), Err(ROOM));
    assert_eq!(text_to_section(b"Zm9v", 3), Ok(b"foo".to_vec()));
    assert_eq!(section_to_text(b"", 0), Ok(vec![]));
    assert_eq!(section_to_text(b"f", 3), Err(ROOM));
    assert_eq!(section_to_text(b"f", 4), Ok(b"Zg==".to_vec()));
}

#[test]
fn a_section_has_4096_bytes_at_most() {
    assert_eq!(section_to_text(&[0; 4096], 5464).unwrap().len(), 5464);
    assert_eq!(section_to_text(&[0; 4096], 5463), Err(ROOM));
    assert_eq!(section_to_text(&[0; 4097], PLENTY), Err(SIZE));
    assert_eq!(section_to_text(&[0; 4097], 0), Err(SIZE));
}
