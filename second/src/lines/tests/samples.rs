//! The printed samples, and the cue of 47,733 seconds.

use super::*;

#[test]
fn the_three_lines_of_01() {
    let texts = [TEXT_OF_004, SECOND_TEXT_OF_003, FIRST_TEXT_OF_003];
    let expected = "A 201467\nR 2\nR 12\n";
    let input = texts.join("\n") + "\n";
    assert_eq!(answers(input.as_bytes()), expected);
    assert_eq!(tallied(&[input.as_bytes()]), expected);
}

#[test]
fn the_restored_first_text_of_003() {
    let text = RESTORED_TEXT_OF_003;
    assert_eq!(answer(text.as_bytes()), "A 24000");
}

#[test]
fn the_sections_of_002_clauses_14_3_14_5_and_14_7() {
    let texts = [whole("002, 14.3"), whole("002, 14.5"), whole("002, 14.7")];
    for text in texts {
        assert_eq!(answer(text.as_bytes()), "N");
    }
}

/// All forty bits count: 32 would leave 1,080,000 ticks, or 12 seconds.
#[test]
fn the_cue_of_47_733_seconds() {
    let unknown = "F0 07 12345678 ABCDEF";
    let text = text(&cue(4_296_047_296, unknown));
    assert_eq!(answer(text.as_bytes()), "A 47733858");
}
