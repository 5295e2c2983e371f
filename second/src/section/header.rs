//! The fields that every section opens with, sealed or not: table_id to splice_command_length.

use super::cursor::Cursor;
use super::items::Items;

#[derive(Clone, Debug, PartialEq, Eq)]
pub struct Header {
    pub table_id: u8,
    pub section_syntax_indicator: bool,
    pub private_indicator: bool,
    pub sap_type: u8,
    pub section_length: u16,
    pub protocol_version: u8,
    pub encrypted_packet: bool,
    pub encryption_algorithm: u8,
    pub pts_adjustment: u64,
    pub cw_index: u8,
    pub tier: u16,
    pub splice_command_length: u16,
}

impl Header {
    /// The bytes that it takes.
    pub const BYTES: usize = 13;

    pub fn read(from: &mut Cursor) -> Option<Header> {
        Some(Header {
            table_id: from.take(8)?,
            section_syntax_indicator: from.flag()?,
            private_indicator: from.flag()?,
            sap_type: from.take(2)?,
            section_length: from.take(12)?,
            protocol_version: from.take(8)?,
            encrypted_packet: from.flag()?,
            encryption_algorithm: from.take(6)?,
            pts_adjustment: from.take(33)?,
            cw_index: from.take(8)?,
            tier: from.take(12)?,
            splice_command_length: from.take(12)?,
        })
    }

    pub fn list(&self, to: &mut Items) {
        to.number("table_id", 8, self.table_id);
        to.number("section_syntax_indicator", 1, self.section_syntax_indicator);
        to.number("private_indicator", 1, self.private_indicator);
        to.number("sap_type", 2, self.sap_type);
        to.number("section_length", 12, self.section_length);
        to.number("protocol_version", 8, self.protocol_version);
        to.number("encrypted_packet", 1, self.encrypted_packet);
        to.number("encryption_algorithm", 6, self.encryption_algorithm);
        to.number("pts_adjustment", 33, self.pts_adjustment);
        to.number("cw_index", 8, self.cw_index);
        to.number("tier", 12, self.tier);
        to.number("splice_command_length", 12, self.splice_command_length);
    }
}
