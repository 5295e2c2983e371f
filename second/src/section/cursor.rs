//! A place in a list of bytes that moves on, bit by bit, as fields are taken.

pub struct Cursor<'a> {
    bytes: &'a [u8],
    /// How many bits are taken already.
    at: usize,
}

impl<'a> Cursor<'a> {
    pub fn new(bytes: &'a [u8]) -> Cursor<'a> {
        Cursor { bytes, at: 0 }
    }

    /// The next bit, if there is one.
    pub fn flag(&mut self) -> Option<bool> {
        let byte = self.bytes.get(self.at / 8)?;
        let bit = byte << (self.at % 8) & 0x80;
        self.at += 1;
        Some(bit != 0)
    }

    /// The number that the next `width` bits make, most significant first, if there are so many.
    pub fn take<T: TryFrom<u64>>(&mut self, width: usize) -> Option<T> {
        let mut number = 0;
        for _ in 0..width {
            number = number << 1 | u64::from(self.flag()?);
        }
        let number = T::try_from(number);
        Some(number.ok().expect("the type is as wide as the field"))
    }

    /// The next `count` bytes, if there are so many.
    pub fn bytes(&mut self, count: u8) -> Option<Vec<u8>> {
        self.list(count, |from| from.take(8))
    }

    /// As many things as `count` says, one after another, if each of them can be read.
    pub fn list<T>(&mut self, count: u8, read: fn(&mut Self) -> Option<T>) -> Option<Vec<T>> {
        (0..count).map(|_| read(self)).collect()
    }

    /// All the bytes that are left.
    pub fn rest(&mut self) -> Option<Vec<u8>> {
        (0..self.left()).map(|_| self.take(8)).collect()
    }

    /// How many whole bytes are left.
    pub fn left(&self) -> usize {
        self.bytes.len() - self.taken()
    }

    /// How many bytes are taken, one begun counted as taken.
    pub fn taken(&self) -> usize {
        self.at.div_ceil(8)
    }
}

#[cfg(test)]
mod tests {
    use super::*;

    #[test]
    fn fields_come_one_after_another() {
        let mut cursor = Cursor::new(&[0xFC, 0x30, 0x34, 0x00]);
        assert_eq!(cursor.take(8), Some(0xFCu8));
        assert_eq!(cursor.flag(), Some(false));
        assert_eq!(cursor.flag(), Some(false));
        assert_eq!(cursor.take(2), Some(3u8));
        assert_eq!(cursor.taken(), 2);
        assert_eq!(cursor.take(12), Some(52u16));
        assert_eq!((cursor.taken(), cursor.left()), (3, 1));
        assert_eq!(cursor.rest(), Some(vec![0]));
        assert_eq!((cursor.taken(), cursor.left()), (4, 0));
        assert_eq!(cursor.rest(), Some(vec![]));
    }

    #[test]
    fn the_widest_field_is_whole() {
        let mut cursor = Cursor::new(&[0xFF; 6]);
        assert_eq!(cursor.take(48), Some((1u64 << 48) - 1));
    }

    #[test]
    fn nothing_is_taken_past_the_end() {
        assert_eq!(Cursor::new(&[]).flag(), None);
        assert_eq!(Cursor::new(&[0xFF]).take::<u64>(9), None);
        assert_eq!(Cursor::new(&[0xFF]).bytes(2), None);
        assert_eq!(Cursor::new(&[1, 2]).bytes(2), Some(vec![1, 2]));
        let three = Cursor::new(&[1, 2]).list(3, |cursor| cursor.take::<u8>(8));
        assert_eq!(three, None);
        let two = Cursor::new(&[1, 2]).list(2, |cursor| cursor.take::<u8>(8));
        assert_eq!(two, Some(vec![1, 2]));
    }
}
