//! A section read whole into plain structs: every field is kept, reserved bits included.
//! The grammar is 002's tables 5 to 20, 27 and 28; what 01 calls reserved is reserved here.

mod accept;
mod apart;
mod command;
mod cursor;
mod descriptor;
mod header;
mod items;
mod listing;
mod segmentation;
mod time;

pub use accept::{accept, LEAST, LEAST_SEALED, LONGEST};
pub use apart::Apart;
pub use command::{
    Command, Event, EventComponent, EventSplicing, InsertComponent, PrivateCommand, SpliceInsert,
    SpliceSchedule, Splicing,
};
pub use descriptor::{AudioComponent, Body, Descriptor, CUEI};
pub use header::Header;
pub use items::{Item, Items};
pub use listing::listing;
pub use segmentation::{Delivery, Segment, SegmentComponent, Segmentation, SUB_SEGMENT_TYPES};
pub use time::{BreakDuration, SpliceTime};

/// splice_info_section(), table 5.
#[derive(Clone, Debug, PartialEq, Eq)]
pub struct Section {
    pub header: Header,
    pub inside: Inside,
    pub crc_32: u32,
}

/// What stands between splice_command_length and CRC_32.
#[derive(Clone, Debug, PartialEq, Eq)]
pub enum Inside {
    Clear(Clear),
    /// From splice_command_type through E_CRC_32, as the bytes that they are.
    Sealed(Vec<u8>),
}

/// The inside of a section that is not encrypted.
#[derive(Clone, Debug, PartialEq, Eq)]
pub struct Clear {
    pub splice_command_type: u8,
    pub command: Command,
    pub descriptor_loop_length: u16,
    pub descriptors: Vec<Descriptor>,
    pub alignment_stuffing: Vec<u8>,
}

impl Section {
    /// Every field in the order in which it stands.
    pub fn items(&self) -> Vec<Item> {
        let mut items = Items::default();
        self.header.list(&mut items);
        match &self.inside {
            Inside::Clear(clear) => clear.list(&mut items),
            Inside::Sealed(sealed) => items.bytes("sealed_byte", sealed),
        }
        items.number("CRC_32", 32, self.crc_32);
        items.list
    }
}

impl Clear {
    fn list(&self, to: &mut Items) {
        to.number("splice_command_type", 8, self.splice_command_type);
        self.command.list(to);
        to.number("descriptor_loop_length", 16, self.descriptor_loop_length);
        for descriptor in &self.descriptors {
            descriptor.list(to);
        }
        to.bytes("alignment_stuffing", &self.alignment_stuffing);
    }
}

#[cfg(test)]
mod tests;
