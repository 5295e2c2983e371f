//! The UPID of a segmentation descriptor, as a part of the section that was lent.

use super::at;
use super::descriptor::known;
use super::entries::{Entries, Reading};
use super::segmentation::uncancelled;
use crate::refusal::NOTHERE;
use crate::section::{Apart, Item, Section};

/// Where the UPID lies, and the bytes that are there. An upid_length of 0 gives no bytes, which is
/// no refusal.
#[derive(Clone, Copy, Debug, PartialEq, Eq)]
pub struct Upid<'a> {
    /// The bytes of the section before it.
    pub offset: usize,
    pub bytes: &'a [u8],
}

impl<'a> Apart<'a> {
    /// The UPID of known descriptor `n`, which must be an uncancelled segmentation descriptor.
    pub fn upid(&self, n: u64) -> Result<Upid<'a>, u8> {
        let known = known(self.clear()?);
        let segment = uncancelled(at(&known, n)?).ok_or(NOTHERE)?;
        let length = segment.segmentation_upid.len();
        // Every uncancelled segmentation descriptor has one, if an empty one.
        let before = known.into_iter().take(n as usize);
        let upids_before = before.filter_map(uncancelled).count();
        let offset = offset_of_upid(self.section()?, upids_before)?;
        let bytes = &self.bytes[offset..offset + length];
        Ok(Upid { offset, bytes })
    }
}

/// Where the UPID starts that has so many before it: behind all fields that stand before it.
fn offset_of_upid(section: &Section, upids_before: usize) -> Result<usize, u8> {
    let mut bits = 0;
    let mut upids_to_pass = upids_before;
    for item in section.items() {
        match item {
            Item::Bytes("segmentation_upid", _) if upids_to_pass == 0 => return Ok(bits / 8),
            Item::Bytes("segmentation_upid", bytes) => {
                upids_to_pass -= 1;
                bits += 8 * bytes.len();
            }
            Item::Bytes(_, bytes) => bits += 8 * bytes.len(),
            Item::Number(_, width, _) => bits += width,
            Item::Open(_) | Item::Close => {}
        }
    }
    Err(NOTHERE)
}

impl Reading for Upid<'_> {
    fn list(&self, to: &mut Entries) {
        to.value("offset", self.offset as u64);
        to.value("length", self.bytes.len() as u64);
        to.bytes("segmentation_upid", self.bytes);
    }
}
