//! The bill label: a UPID of the section, or else the house name, each as a part of what was lent.

use crate::reading::{Entries, Reading};
use crate::section::{Apart, Item};

#[derive(Clone, Copy, Debug, PartialEq, Eq)]
pub enum Label<'a> {
    /// A part of the section, behind so many of its bytes.
    Upid { offset: usize, bytes: &'a [u8] },
    /// The house name as it was lent.
    HouseName(&'a [u8]),
}

impl<'a> Apart<'a> {
    /// The UPID of the first uncancelled segmentation descriptor that has one with bytes in it, or
    /// the house name. A section that is refused or sealed has the house name too: this is never a
    /// refusal.
    pub fn bill_label(&self, house_name: &'a [u8]) -> Label<'a> {
        self.first_upid().unwrap_or(Label::HouseName(house_name))
    }

    /// The fields are passed one after another until a UPID comes that has bytes. Cancelled
    /// segmentation descriptors, unknown descriptors and sealed sections have no field of that name.
    fn first_upid(&self) -> Option<Label<'a>> {
        let mut bits = 0;
        for item in self.section().ok()?.items() {
            match item {
                Item::Bytes("segmentation_upid", upid) if !upid.is_empty() => {
                    let offset = bits / 8;
                    let bytes = &self.bytes[offset..offset + upid.len()];
                    return Some(Label::Upid { offset, bytes });
                }
                Item::Bytes(_, bytes) => bits += 8 * bytes.len(),
                Item::Number(_, width, _) => bits += width,
                Item::Open(_) | Item::Close => {}
            }
        }
        None
    }
}

impl<'a> Label<'a> {
    pub fn bytes(&self) -> &'a [u8] {
        match self {
            Label::Upid { bytes, .. } => bytes,
            Label::HouseName(bytes) => bytes,
        }
    }
}

impl Reading for Label<'_> {
    fn list(&self, to: &mut Entries) {
        match self {
            Label::Upid { offset, bytes } => {
                to.case("label", "UPID", 0);
                to.value("offset", *offset as u64);
                to.value("length", bytes.len() as u64);
            }
            Label::HouseName(_) => to.case("label", "house name", 1),
        }
    }
}
