//! A pen that takes numbers from a sheet, one after another, and writes them down as fields.

use crate::crc::crc32;
use crate::section::LONGEST;

pub struct Pen<'a> {
    numbers: &'a [u64],
    bits: Vec<bool>,
}

impl<'a> Pen<'a> {
    pub fn new(numbers: &'a [u64]) -> Pen<'a> {
        let bits = Vec::new();
        Pen { numbers, bits }
    }

    /// Writes the next number into a field and says it, if there is one and it fits.
    pub fn field(&mut self, width: usize) -> Option<u64> {
        let (number, others) = self.numbers.split_first()?;
        if *number >= 1 << width {
            return None;
        }
        self.put(width, *number);
        self.numbers = others;
        Some(*number)
    }

    pub fn flag(&mut self) -> Option<bool> {
        Some(self.field(1)? == 1)
    }

    /// Writes the next numbers into fields of these widths.
    pub fn fields(&mut self, widths: &[usize]) -> Option<()> {
        for width in widths {
            self.field(*width)?;
        }
        Some(())
    }

    /// Writes so many numbers as bytes.
    pub fn bytes(&mut self, count: u64) -> Option<()> {
        for _ in 0..count {
            self.field(8)?;
        }
        Some(())
    }

    /// Writes all numbers that are left as bytes.
    pub fn rest(&mut self) -> Option<()> {
        self.bytes(self.numbers.len() as u64)
    }

    /// Leaves a field open that stands on no sheet.
    pub fn blank(&mut self, width: usize) {
        self.put(width, 0);
    }

    /// How many bytes are written.
    pub fn written(&self) -> u64 {
        self.bits.len() as u64 / 8
    }

    /// The bytes with section_length and CRC_32, unless they are too many for a section.
    pub fn finished(self) -> Option<Vec<u8>> {
        let byte = |bits: &[bool]| bits.iter().fold(0, |byte, bit| byte << 1 | u8::from(*bit));
        let mut section: Vec<u8> = self.bits.chunks(8).map(byte).collect();
        let count = section.len() + 4;
        if count > LONGEST {
            return None;
        }
        let [high, low] = (count as u16 - 3).to_be_bytes();
        section[1] |= high;
        section[2] |= low;
        section.extend(crc32(&section).to_be_bytes());
        Some(section)
    }

    fn put(&mut self, width: usize, number: u64) {
        let places = (0..width).rev();
        self.bits
            .extend(places.map(|place| number >> place & 1 == 1));
    }
}

#[cfg(test)]
mod tests {
    use super::*;

    #[test]
    fn a_number_must_fit_its_field() {
        assert_eq!(Pen::new(&[255]).field(8), Some(255));
        assert_eq!(Pen::new(&[256]).field(8), None);
        assert_eq!(Pen::new(&[1]).flag(), Some(true));
        assert_eq!(Pen::new(&[2]).flag(), None);
        assert_eq!(Pen::new(&[u64::MAX]).field(48), None);
        assert_eq!(Pen::new(&[]).field(8), None);
        assert_eq!(Pen::new(&[0, 0]).bytes(3), None);
        assert_eq!(Pen::new(&[0, 256]).rest(), None);
    }

    #[test]
    fn fields_are_written_one_behind_another() {
        let mut pen = Pen::new(&[0xFC, 0, 0, 3, 1, 2]);
        assert_eq!(pen.fields(&[8, 1, 1, 2]), Some(()));
        pen.blank(12);
        assert_eq!(pen.written(), 3);
        assert_eq!(pen.rest(), Some(()));
        let section = pen.finished().unwrap();
        assert_eq!(section[..5], [0xFC, 0x30, 6, 1, 2]);
        assert_eq!(section.len(), 9);
        assert_eq!(crc32(&section), 0);
    }

    #[test]
    fn a_section_has_4096_bytes_at_most() {
        for (count, fits) in [(4092, true), (4093, false)] {
            let numbers = vec![0; count];
            let mut pen = Pen::new(&numbers);
            pen.rest();
            assert_eq!(pen.finished().is_some(), fits);
        }
    }
}
