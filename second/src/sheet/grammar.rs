//! The grammar walked over the numbers of a sheet: which width each has, and which come next.
//! It only finds a way through; whether the section that comes out is right is asked afterwards.

use super::pen::Pen;
use crate::section::CUEI;

/// The section that the numbers make, if they can be taken for the fields of one.
pub fn section_from(sheet: &[u64]) -> Option<Vec<u8>> {
    let mut whole = Pen::new(sheet);
    let pen = &mut whole;
    // table_id, section_syntax_indicator, private_indicator, sap_type; section_length is not there
    pen.fields(&[8, 1, 1, 2])?;
    pen.blank(12);
    // protocol_version, encrypted_packet
    pen.field(8)?;
    let encrypted = pen.flag()?;
    // encryption_algorithm, pts_adjustment, cw_index, tier
    pen.fields(&[6, 33, 8, 12])?;
    let splice_command_length = pen.field(12)?;
    if !encrypted {
        let splice_command_type = pen.field(8)?;
        command(pen, splice_command_type, splice_command_length)?;
        let descriptor_loop_length = pen.field(16)?;
        let end = pen.written() + descriptor_loop_length;
        while pen.written() < end {
            descriptor(pen)?;
        }
    }
    // What is sealed, or the stuffing.
    pen.rest()?;
    whole.finished()
}

fn command(pen: &mut Pen, kind: u64, length: u64) -> Option<()> {
    match kind {
        0x00 | 0x07 => Some(()),
        0x04 => {
            let splice_count = pen.field(8)?;
            repeated(pen, splice_count, event)
        }
        0x05 => insert(pen),
        0x06 => splice_time(pen),
        0xFF => {
            pen.field(32)?;
            pen.bytes(length.checked_sub(4)?)
        }
        _ => pen.bytes(length),
    }
}

fn repeated(pen: &mut Pen, count: u64, each: fn(&mut Pen) -> Option<()>) -> Option<()> {
    (0..count).try_for_each(|_| each(pen))
}

fn insert(pen: &mut Pen) -> Option<()> {
    pen.field(32)?;
    let cancelled = pen.flag()?;
    pen.field(7)?;
    if cancelled {
        return Some(());
    }
    pen.flag()?;
    let program = pen.flag()?;
    let duration = pen.flag()?;
    let immediate = pen.flag()?;
    pen.field(4)?;
    match (program, immediate) {
        (true, true) => {}
        (true, false) => splice_time(pen)?,
        (false, true) => {
            let component_count = pen.field(8)?;
            pen.bytes(component_count)?;
        }
        (false, false) => {
            let component_count = pen.field(8)?;
            repeated(pen, component_count, |pen| {
                pen.field(8)?;
                splice_time(pen)
            })?;
        }
    }
    if duration {
        break_duration(pen)?;
    }
    pen.fields(&[16, 8, 8])
}

fn event(pen: &mut Pen) -> Option<()> {
    pen.field(32)?;
    let cancelled = pen.flag()?;
    pen.field(7)?;
    if cancelled {
        return Some(());
    }
    pen.flag()?;
    let program = pen.flag()?;
    let duration = pen.flag()?;
    pen.field(5)?;
    if program {
        pen.field(32)?;
    } else {
        let component_count = pen.field(8)?;
        repeated(pen, component_count, |pen| pen.fields(&[8, 32]))?;
    }
    if duration {
        break_duration(pen)?;
    }
    pen.fields(&[16, 8, 8])
}

fn splice_time(pen: &mut Pen) -> Option<()> {
    if pen.flag()? {
        pen.fields(&[6, 33])
    } else {
        pen.fields(&[7])
    }
}

fn break_duration(pen: &mut Pen) -> Option<()> {
    pen.fields(&[1, 6, 33])
}

fn descriptor(pen: &mut Pen) -> Option<()> {
    let tag = pen.field(8)?;
    let length = pen.field(8)?;
    let end = pen.written() + length;
    let identifier = pen.field(32)?;
    if identifier != u64::from(CUEI) {
        return pen.bytes(length.checked_sub(4)?);
    }
    match tag {
        0 => pen.fields(&[32]),
        1 => {
            pen.field(8)?;
            let dtmf_count = pen.field(3)?;
            pen.field(5)?;
            pen.bytes(dtmf_count)
        }
        2 => segmentation(pen, end),
        3 => pen.fields(&[48, 32, 16]),
        4 => {
            let audio_count = pen.field(4)?;
            pen.field(4)?;
            repeated(pen, audio_count, |pen| pen.fields(&[8, 24, 3, 4, 1]))
        }
        _ => pen.bytes(length.checked_sub(4)?),
    }
}

/// Where the descriptor ends says whether it has the two bytes for sub-segments.
fn segmentation(pen: &mut Pen, end: u64) -> Option<()> {
    pen.field(32)?;
    let cancelled = pen.flag()?;
    pen.field(7)?;
    if cancelled {
        return Some(());
    }
    let program = pen.flag()?;
    let duration = pen.flag()?;
    let not_restricted = pen.flag()?;
    if not_restricted {
        pen.field(5)?;
    } else {
        pen.fields(&[1, 1, 1, 2])?;
    }
    if !program {
        let component_count = pen.field(8)?;
        repeated(pen, component_count, |pen| pen.fields(&[8, 7, 33]))?;
    }
    if duration {
        pen.field(40)?;
    }
    pen.field(8)?;
    let upid_length = pen.field(8)?;
    pen.bytes(upid_length)?;
    pen.fields(&[8, 8, 8])?;
    if pen.written() + 2 == end {
        pen.bytes(2)?;
    }
    Some(())
}
