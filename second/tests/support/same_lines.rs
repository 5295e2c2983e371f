//! Two lists of answers to one input, which must be equal.

use super::random::seed;

/// How much of a line is shown.
const SHOWN: usize = 200;

/// Ends the test with the first line that is answered in two ways.
pub fn same_lines(name: &str, input: &[u8], second: &[u8], proved: &[u8]) {
    if second == proved {
        return;
    }
    let second: Vec<&[u8]> = second.split_inclusive(|byte| *byte == b'\n').collect();
    let proved: Vec<&[u8]> = proved.split_inclusive(|byte| *byte == b'\n').collect();
    let at = second.iter().zip(&proved).position(|(a, b)| a != b);
    let at = at.unwrap_or(second.len().min(proved.len()));
    let line = input.split(|byte| *byte == b'\n').nth(at);
    panic!(
        "\n{name}: line {} is answered in two ways\n  seed: {:#018x}\n  second: {}\n  proved: {}\n  line: {}\n",
        at + 1,
        seed(),
        shown(second.get(at).copied()),
        shown(proved.get(at).copied()),
        shown(line),
    )
}

fn shown(line: Option<&[u8]>) -> String {
    match line {
        None => "none".to_string(),
        Some(line) => line[..line.len().min(SHOWN)].escape_ascii().to_string(),
    }
}
