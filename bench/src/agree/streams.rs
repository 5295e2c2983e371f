//! Streams of lines, cut into pieces in many ways, with much and with little room for the answers.

use super::LONGEST_LINE;
use crate::{proved, yardstick};
use second::lines;

/// The short streams: no line, empty ones, one that is not ended, and a carriage return.
const SHORT: [&[u8]; 7] = [
    b"",
    b"\n",
    b"\n\n",
    b"A",
    b"AAAA\n",
    b"\nAAAA\n\nA\r\n",
    b"AA==\n=",
];

/// How many streams and cuts of them got the same answers, or what differs.
pub fn check(texts: &[&[u8]]) -> Result<usize, String> {
    let mut compared = 0;
    for stream in SHORT {
        compared += every_cut(stream)?;
    }
    for few in texts.chunks(3).take(40) {
        compared += every_cut(&few.join(&b'\n'))?;
    }
    for length in [5_463, 5_464, 5_465, 20_000] {
        let long = [&vec![b'A'; length][..], b"\n", texts[0]].concat();
        compared += in_pieces(&long)?;
    }
    Ok(compared + in_pieces(&texts.join(&b'\n'))?)
}

/// In two pieces, however it is cut, and in pieces of every small size.
fn every_cut(stream: &[u8]) -> Result<usize, String> {
    let mut compared = in_pieces(stream)?;
    for place in 0..stream.len().min(300) {
        let (one, other) = stream.split_at(place);
        compared += same(stream, &[one, other], LONGEST_LINE)?;
    }
    Ok(compared)
}

fn in_pieces(stream: &[u8]) -> Result<usize, String> {
    let mut compared = 0;
    for size in [1, 2, 3, 7, 100, 4_096, 65_536] {
        let pieces: Vec<_> = stream.chunks(size).collect();
        for room in [LONGEST_LINE, LONGEST_LINE + 1, 1_000, 100_000] {
            compared += same(stream, &pieces, room)?;
        }
    }
    Ok(compared)
}

/// Whether the three programs answer the stream alike, two of them in these pieces.
fn same(stream: &[u8], pieces: &[&[u8]], room: usize) -> Result<usize, String> {
    let by_second = lines::answers(stream).into_bytes();
    let by_proved = proved::stream(pieces.iter().copied(), room);
    let by_yardstick = yardstick::stream(pieces.iter().copied());
    if by_second == by_proved && by_second == by_yardstick {
        return Ok(1);
    }
    Err(format!(
        "the stream {:?} in {} pieces and room for {room}: proved {:?}, yardstick {:?}, \
         second {:?}",
        String::from_utf8_lossy(stream),
        pieces.len(),
        String::from_utf8_lossy(&by_proved),
        String::from_utf8_lossy(&by_yardstick),
        String::from_utf8_lossy(&by_second)
    ))
}
