//! The longest lines that are read, and lines that are longer.

use super::*;

/// A cue with bytes of stuffing until it is so long.
fn stuffed_cue(length: usize) -> Vec<u8> {
    let mut bytes = cue(4_296_047_296, "");
    bytes.truncate(bytes.len() - 4);
    bytes.resize(length - 4, 0xA5);
    finished(bytes)
}

#[test]
fn the_longest_section() {
    let text = text(&stuffed_cue(4096));
    assert_eq!(text.len(), 5464);
    assert_eq!(answer(text.as_bytes()), "A 47733858");
    assert_eq!(tallied(&[text.as_bytes()]), "A 47733858\n");
}

/// 4,097 and 4,098 bytes: the section is refused, not the text, and never for want of room.
#[test]
fn the_longest_texts() {
    for (start, expected) in [("AAAA", "R 2"), ("/LAA", "R 3"), ("/DAA", "R 4")] {
        for end in ["AAA=", "AAAA"] {
            let text = format!("{start}{}{end}", "A".repeat(5456));
            assert_eq!(answer(text.as_bytes()), expected);
            assert_eq!(tallied(&[text.as_bytes()]), format!("{expected}\n"));
        }
    }
}

#[test]
fn a_line_that_is_too_long_is_refused_once() {
    for length in [5465, 5466, 5467, 5468, 2 * 5465, 20_000, 1_000_000] {
        let input = format!("{}\n{TEXT_OF_004}\n", "A".repeat(length));
        assert_eq!(answers(input.as_bytes()), "R 12\nA 201467\n", "{length}");
        let pieces: Vec<&[u8]> = input.as_bytes().chunks(PIECE).collect();
        assert_eq!(tallied(&pieces), "R 12\nA 201467\n", "{length}");
    }
}

/// The rest of a long line is not read as another line, even if it would be a good one.
#[test]
fn a_good_text_at_the_end_of_a_long_line() {
    for length in [5389, 5392, 5464, 5465, 5468, 65_000] {
        let line = "A".repeat(length) + TEXT_OF_004;
        assert_eq!(answer(line.as_bytes()), "R 12", "{length}");
        let pieces: Vec<&[u8]> = line.as_bytes().chunks(length).collect();
        assert_eq!(tallied(&pieces), "R 12\n", "{length}");
    }
    // One character less, and it is a text that is read.
    let line = "A".repeat(5388) + TEXT_OF_004;
    assert_eq!(tallied(&[line.as_bytes()]), "R 2\n");
}

#[test]
fn a_long_line_without_a_newline() {
    let input = vec![b'\r'; PIECE];
    assert_eq!(tallied(&[&input, &input, &input]), "R 12\n");
    assert_eq!(tallied(&[b"\n", &input]), "R 1\nR 12\n");
}

#[test]
fn a_long_line_is_not_kept() {
    let mut line = Line::default();
    for _ in 0..1_000_000 {
        assert_eq!(line.take(b'A'), "");
    }
    assert_eq!(line.kept.len(), 5465);
    assert!(line.kept.capacity() <= 2 * 5465);
    assert_eq!(line.take(b'\n'), "R 12\n");
    assert!(line.kept.is_empty());
}
