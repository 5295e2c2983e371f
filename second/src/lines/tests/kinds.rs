//! Every kind of answer and every refusal, alone and in one input.

use super::*;

/// splice_insert() of the program, at once: these flags (hex), then what they ask for.
fn insert(flags: &str, behind: &str) -> Vec<u8> {
    let command = format!("00000009 7F {flags} {behind} 0002 03 04");
    let length = command.replace(' ', "").len() / 2;
    section(length as u16, &format!("05 {command} 0000"))
}

fn sections() -> Vec<(Vec<u8>, &'static str)> {
    let null = section(0, "00 0000");
    let stuffed = section(0, "00 0000 01020304");
    let good = cue(90, "");
    let untimed = "02 0F 43554549 00000007 7F BF 00 00 34 01 01";
    let mut another_table = good.clone();
    another_table[0] = 0xFD;
    let mut wrong_crc = good.clone();
    wrong_crc[20] ^= 1;
    vec![
        (good.clone(), "A 1"),
        (cue(0, ""), "A 0"),
        (cue(89, ""), "A 0"),
        (cue((1 << 40) - 1, ""), "A 12216795864"),
        (insert("FF", "FE00000000"), "A 0"),
        (insert("FF", "FFFFFFFFFF"), "A 95443717"),
        (insert("DF", ""), "B"),
        (section(1, &format!("06 7F 0011 {untimed}")), "B"),
        (insert("5F", ""), "N"),
        (null.clone(), "N"),
        (section(5, "FF 01020304 05 0000"), "N"),
        (section(0, "01 0000"), "X"),
        (with_byte(&stuffed, 4, 0x80), "X"),
        (vec![], "R 1"),
        (good[..19].to_vec(), "R 1"),
        (another_table, "R 2"),
        (with_byte(&good, 1, 0xB0), "R 3"),
        (good[..good.len() - 1].to_vec(), "R 4"),
        (wrong_crc, "R 5"),
        (with_byte(&good, 3, 1), "R 6"),
        (with_byte(&null, 4, 0x80), "R 7"),
        (section(1, "00 0000"), "R 8"),
        (section(1, "06 7F 0001"), "R 9"),
        (section(1, "06 7F 0006 00 04 43554549"), "R 10"),
    ]
}

/// Texts that are refused as texts; as sections they would be too short.
const TEXTS: [(&[u8], &str); 17] = [
    (b"A", "R 12"),
    (b"AAA", "R 12"),
    (b"AAAA\r", "R 12"),
    (b"=", "R 12"),
    (b"AAA\r", "R 13"),
    (b"AA A", "R 13"),
    (b" AAA", "R 13"),
    (b"AAA\t", "R 13"),
    (b"AA-_", "R 13"),
    (b"A===", "R 13"),
    (b"AA=A", "R 13"),
    (b"AA==AAAA", "R 13"),
    (b"AAA\0", "R 13"),
    (b"AA\xC3\xA9", "R 13"),
    (b"A\xFFB=", "R 13"),
    (b"AB==", "R 14"),
    (b"AAB=", "R 14"),
];

/// Each text with its answer.
pub fn every_kind() -> Vec<(Vec<u8>, &'static str)> {
    let of_sections = sections().into_iter();
    let of_sections = of_sections.map(|(section, answer)| (text(&section).into_bytes(), answer));
    let of_texts = TEXTS.into_iter();
    let of_texts = of_texts.map(|(text, answer)| (text.to_vec(), answer));
    of_sections.chain(of_texts).collect()
}

#[test]
fn each_alone() {
    for (text, expected) in every_kind() {
        assert_eq!(answer(&text), expected, "{}", text.escape_ascii());
    }
}

#[test]
fn all_in_one_input() {
    let (mut input, mut expected) = (Vec::new(), String::new());
    for (text, answer) in every_kind() {
        input.extend(text);
        input.push(b'\n');
        expected += &format!("{answer}\n");
    }
    assert_eq!(answers(&input), expected);
    assert_eq!(tallied(&[&input]), expected);
}

#[test]
fn each_as_a_last_line_without_a_newline() {
    for (text, expected) in every_kind() {
        let input = [b"AAA\n", text.as_slice()].concat();
        // An empty one is no line.
        let last = match text.as_slice() {
            [] => String::new(),
            _ => format!("{expected}\n"),
        };
        assert_eq!(answers(&input), format!("R 12\n{last}"));
        assert_eq!(tallied(&[&input]), format!("R 12\n{last}"));
    }
}

#[test]
fn empty_lines_and_empty_inputs() {
    let inputs = [
        ("", ""),
        ("\n", "R 1\n"),
        ("\n\n\n", "R 1\nR 1\nR 1\n"),
        ("A", "R 12\n"),
        ("A\n", "R 12\n"),
        ("A\n\n", "R 12\nR 1\n"),
        ("\nA", "R 1\nR 12\n"),
        ("\r\n", "R 12\n"),
    ];
    for (input, expected) in inputs {
        assert_eq!(answers(input.as_bytes()), expected, "{input:?}");
        let pieces: Vec<&[u8]> = input.as_bytes().chunks(1).collect();
        assert_eq!(tallied(&pieces), expected, "{input:?}");
    }
}
