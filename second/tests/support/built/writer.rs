//! Fields put one behind another, most significant bit first, and the places of some of them.

/// The place of a length or a count.
#[derive(Clone)]
pub struct Mark {
    pub name: &'static str,
    /// Its first bit.
    pub at: usize,
    pub width: usize,
}

#[derive(Clone, Default)]
pub struct Writer {
    bits: Vec<bool>,
    marks: Vec<Mark>,
}

impl Writer {
    pub fn put(&mut self, width: usize, value: u64) {
        assert!(value < 1 << width, "{value} does not fit into {width} bits");
        let places = (0..width).rev();
        self.bits
            .extend(places.map(|place| value >> place & 1 == 1));
    }

    /// A field whose place is kept.
    pub fn marked(&mut self, name: &'static str, width: usize, value: u64) {
        let at = self.bits.len();
        self.marks.push(Mark { name, at, width });
        self.put(width, value);
    }

    pub fn bytes(&mut self, bytes: &[u8]) {
        for byte in bytes {
            self.put(8, u64::from(*byte));
        }
    }

    pub fn append(&mut self, part: Writer) {
        let before = self.bits.len();
        for mut mark in part.marks {
            mark.at += before;
            self.marks.push(mark);
        }
        self.bits.extend(part.bits);
    }

    /// How many bytes there are.
    pub fn count(&self) -> usize {
        assert!(
            self.bits.len().is_multiple_of(8),
            "the last byte is not whole"
        );
        self.bits.len() / 8
    }

    /// The bytes and the places.
    pub fn done(self) -> (Vec<u8>, Vec<Mark>) {
        let byte = |bits: &[bool]| bits.iter().fold(0, |byte, bit| byte << 1 | u8::from(*bit));
        (self.bits.chunks(8).map(byte).collect(), self.marks)
    }
}
