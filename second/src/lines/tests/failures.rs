//! Reading or writing that fails.

use super::*;

/// An input that fails once its bytes are read.
struct Broken<'a>(&'a [u8]);

impl Read for Broken<'_> {
    fn read(&mut self, room: &mut [u8]) -> io::Result<usize> {
        match self.0.read(room)? {
            0 => Err(ErrorKind::InvalidData.into()),
            count => Ok(count),
        }
    }
}

/// An output that takes so many writes, and tells what each of them was.
struct Full {
    left: usize,
    taken: Vec<String>,
}

impl Full {
    fn after(left: usize) -> Full {
        Full {
            left,
            taken: vec![],
        }
    }
}

impl Write for Full {
    fn write(&mut self, bytes: &[u8]) -> io::Result<usize> {
        if self.left == 0 {
            return Err(ErrorKind::StorageFull.into());
        }
        self.left -= 1;
        self.taken.push(String::from_utf8(bytes.to_vec()).unwrap());
        Ok(bytes.len())
    }

    fn flush(&mut self) -> io::Result<()> {
        Ok(())
    }
}

fn kind(result: io::Result<()>) -> ErrorKind {
    result.expect_err("a failure").kind()
}

/// What was whole before the failure is answered; the line that it broke is not.
#[test]
fn a_read_that_fails() {
    let mut output = Vec::new();
    let result = tally(Broken(b"AAA\n\nAAAA"), &mut output);
    assert_eq!(kind(result), ErrorKind::InvalidData);
    assert_eq!(output, b"R 12\nR 1\n");
}

/// Nothing more is read, and every write was of whole lines.
#[test]
fn a_write_that_fails() {
    let pieces: [&[u8]; 5] = [b"AAA\nAA", b"A", b"A\n\n", b"A\n", b"A\n"];
    let lines = ["R 12\n", "R 1\nR 1\n", "R 12\n"];
    for (written, read) in [(0, 1), (1, 3), (2, 4)] {
        let mut input = Pieces::new(&pieces);
        let mut output = Full::after(written);
        let result = tally(&mut input, &mut output);
        assert_eq!(kind(result), ErrorKind::StorageFull);
        assert_eq!(output.taken, lines[..written]);
        assert_eq!(input.left, &pieces[read..]);
    }
}

#[test]
fn the_answer_to_a_last_line_that_cannot_be_written() {
    let result = tally(&b"AAA"[..], Full::after(0));
    assert_eq!(kind(result), ErrorKind::StorageFull);
}
