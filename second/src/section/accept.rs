//! Rows 1 to 10 of 01's table, strictly in that order: which sections are accepted.

use super::command::Command;
use super::cursor::Cursor;
use super::descriptor::Descriptor;
use super::{Clear, Header, Inside, Section};
use crate::crc::crc32;
use crate::refusal::{COMMAND, CRC, CRYPT, DESCRIPTOR, LOOP, SHORT, SIZE, SYNTAX, TABLE, VERSION};

/// The fewest bytes of a section.
pub const LEAST: usize = 20;

/// The fewest bytes of a sealed section.
pub const LEAST_SEALED: usize = 24;

/// The most bytes of a section: section_length is 4,093 at most, and three bytes stand before it.
pub const LONGEST: usize = 4096;

/// The section with all its fields, or the number of the first row that applies to it.
pub fn accept(section: &[u8]) -> Result<Section, u8> {
    if section.len() < LEAST {
        return Err(SHORT);
    }
    let header = Header::read(&mut Cursor::new(section)).ok_or(SHORT)?;
    if header.table_id != 0xFC {
        return Err(TABLE);
    }
    if header.section_syntax_indicator || header.private_indicator {
        return Err(SYNTAX);
    }
    let stated = usize::from(header.section_length) + 3;
    if stated > LONGEST || stated != section.len() {
        return Err(SIZE);
    }
    if crc32(section) != 0 {
        return Err(CRC);
    }
    if header.protocol_version != 0 {
        return Err(VERSION);
    }
    if header.encrypted_packet && section.len() < LEAST_SEALED {
        return Err(CRYPT);
    }

    let before_the_crc = section.len() - 4;
    let inside = &section[Header::BYTES..before_the_crc];
    let inside = if header.encrypted_packet {
        Inside::Sealed(inside.to_vec())
    } else {
        Inside::Clear(clear(header.splice_command_length, inside)?)
    };
    let crc_32 = section[before_the_crc..]
        .iter()
        .fold(0, |number, byte| number << 8 | u32::from(*byte));
    Ok(Section {
        header,
        inside,
        crc_32,
    })
}

/// The command, the descriptors and the stuffing in what stands before the CRC.
fn clear(splice_command_length: u16, inside: &[u8]) -> Result<Clear, u8> {
    let [splice_command_type, after_the_type @ ..] = inside else {
        return Err(COMMAND);
    };
    let (command, after_the_command) =
        Command::read(*splice_command_type, splice_command_length, after_the_type)
            .ok_or(COMMAND)?;

    let [high, low, after_the_length @ ..] = after_the_command else {
        return Err(LOOP);
    };
    let descriptor_loop_length = u16::from_be_bytes([*high, *low]);
    let (descriptors, stuffing) = after_the_length
        .split_at_checked(usize::from(descriptor_loop_length))
        .ok_or(LOOP)?;

    Ok(Clear {
        splice_command_type: *splice_command_type,
        command,
        descriptor_loop_length,
        descriptors: Descriptor::read_all(descriptors).ok_or(DESCRIPTOR)?,
        alignment_stuffing: stuffing.to_vec(),
    })
}
