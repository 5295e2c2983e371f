//! The files that `tests/programs` puts through the programs, here through the archive's functions,
//! in pieces as a program reads them.

use crate::support::files::files;
use crate::support::Bench;

/// What a program reads at once, and the room that it has for answers.
const PIECE: usize = 65_536;

pub fn all(bench: &mut Bench) {
    for file in files(&mut bench.random) {
        println!("{:9} bytes: {}", file.input.len(), file.name);
        let pieces: Vec<&[u8]> = file.input.chunks(PIECE).collect();
        bench.stream(&pieces, |_| PIECE);
    }
}
