//! Which two sections must have the same answers, told by their sheets alone: those whose sheets are
//! equal once reserved fields are set to 0 and descriptor_loop_length, unknown descriptors and
//! stuffing are taken out. splice_command_length stays.

use super::section_of;
use crate::section::CUEI;

/// Whether two sheets are equal in all that answers may rest on. What is no sheet is related to
/// nothing.
pub fn related(one: &[u64], other: &[u64]) -> bool {
    match (essence(one), essence(other)) {
        (Some(one), Some(other)) => one == other,
        _ => false,
    }
}

/// The sheet with its reserved fields set to 0, without what is taken out.
fn essence(sheet: &[u64]) -> Option<Vec<u64>> {
    section_of(sheet).ok()?;
    let mut sieve = Sieve::new(sheet);
    section(&mut sieve)?;
    Some(sieve.kept)
}

/// Takes the numbers of a sheet one after another, and keeps those that matter.
struct Sieve<'a> {
    left: &'a [u64],
    kept: Vec<u64>,
}

impl<'a> Sieve<'a> {
    fn new(left: &'a [u64]) -> Sieve<'a> {
        let kept = Vec::new();
        Sieve { left, kept }
    }

    fn next(&mut self) -> Option<u64> {
        let (number, others) = self.left.split_first()?;
        self.left = others;
        Some(*number)
    }

    fn keep(&mut self) -> Option<u64> {
        let number = self.next()?;
        self.kept.push(number);
        Some(number)
    }

    fn keep_flag(&mut self) -> Option<bool> {
        Some(self.keep()? == 1)
    }

    fn keep_some(&mut self, count: u64) -> Option<()> {
        (0..count).try_for_each(|_| self.keep().map(|_| ()))
    }

    fn keep_rest(&mut self) {
        self.kept.extend(self.left);
        self.left = &[];
    }

    /// A reserved field.
    fn reserved(&mut self) -> Option<()> {
        self.next()?;
        self.kept.push(0);
        Some(())
    }

    fn take_out(&mut self, count: u64) -> Option<()> {
        self.left = self.left.get(count as usize..)?;
        Some(())
    }
}

fn section(sieve: &mut Sieve) -> Option<()> {
    // table_id, section_syntax_indicator, private_indicator
    sieve.keep_some(3)?;
    // sap_type
    sieve.reserved()?;
    // protocol_version
    sieve.keep()?;
    let encrypted_packet = sieve.keep_flag()?;
    // encryption_algorithm, pts_adjustment, cw_index, tier
    sieve.keep_some(4)?;
    let splice_command_length = sieve.keep()?;
    if encrypted_packet {
        sieve.keep_rest();
        return Some(());
    }
    command(sieve, splice_command_length)?;
    let descriptor_loop_length = sieve.next()?;
    let mut bytes = 0;
    while bytes < descriptor_loop_length {
        bytes += 2 + descriptor(sieve)?;
    }
    // What is left is stuffing.
    Some(())
}

fn command(sieve: &mut Sieve, length: u64) -> Option<()> {
    match sieve.keep()? {
        0x00 | 0x07 => Some(()),
        0x04 => {
            let splice_count = sieve.keep()?;
            (0..splice_count).try_for_each(|_| event(sieve))
        }
        0x05 => insert(sieve),
        0x06 => splice_time(sieve),
        // identifier and private bytes: its first number stands for four bytes
        0xFF => sieve.keep_some(length.checked_sub(3)?),
        _ => sieve.keep_some(length),
    }
}

/// An event id and whether the event is cancelled, with the reserved bits behind it.
fn event_id(sieve: &mut Sieve) -> Option<bool> {
    sieve.keep()?;
    let cancelled = sieve.keep_flag()?;
    sieve.reserved()?;
    Some(cancelled)
}

fn insert(sieve: &mut Sieve) -> Option<()> {
    if event_id(sieve)? {
        return Some(());
    }
    // out_of_network_indicator
    sieve.keep()?;
    let program = sieve.keep_flag()?;
    let duration = sieve.keep_flag()?;
    let immediate = sieve.keep_flag()?;
    sieve.reserved()?;
    if program && !immediate {
        splice_time(sieve)?;
    }
    if !program {
        let component_count = sieve.keep()?;
        for _ in 0..component_count {
            sieve.keep()?;
            if !immediate {
                splice_time(sieve)?;
            }
        }
    }
    behind_the_splice(sieve, duration)
}

fn event(sieve: &mut Sieve) -> Option<()> {
    if event_id(sieve)? {
        return Some(());
    }
    // out_of_network_indicator
    sieve.keep()?;
    let program = sieve.keep_flag()?;
    let duration = sieve.keep_flag()?;
    sieve.reserved()?;
    // utc_splice_time or component_count
    let number = sieve.keep()?;
    if !program {
        sieve.keep_some(2 * number)?;
    }
    behind_the_splice(sieve, duration)
}

/// break_duration(), where it is there, unique_program_id, avail_num and avails_expected.
fn behind_the_splice(sieve: &mut Sieve, duration: bool) -> Option<()> {
    if duration {
        sieve.keep()?;
        sieve.reserved()?;
        sieve.keep()?;
    }
    sieve.keep_some(3)
}

fn splice_time(sieve: &mut Sieve) -> Option<()> {
    let specified = sieve.keep_flag()?;
    sieve.reserved()?;
    if specified {
        sieve.keep()?;
    }
    Some(())
}

/// A descriptor is kept or taken out; says its descriptor_length.
fn descriptor(sieve: &mut Sieve) -> Option<u64> {
    let [tag, length, identifier, ..] = *sieve.left else {
        return None;
    };
    if identifier != u64::from(CUEI) || tag > 4 {
        // identifier and private bytes: its one number stands for four bytes
        sieve.take_out(3 + length.checked_sub(4)?)?;
        return Some(length);
    }
    sieve.keep_some(3)?;
    match tag {
        0 => sieve.keep_some(1)?,
        1 => {
            sieve.keep()?;
            let dtmf_count = sieve.keep()?;
            sieve.reserved()?;
            sieve.keep_some(dtmf_count)?;
        }
        2 => segmentation(sieve, length)?,
        3 => sieve.keep_some(3)?,
        _ => {
            let audio_count = sieve.keep()?;
            sieve.reserved()?;
            sieve.keep_some(5 * audio_count)?;
        }
    }
    Some(length)
}

fn segmentation(sieve: &mut Sieve, length: u64) -> Option<()> {
    if event_id(sieve)? {
        return Some(());
    }
    let program = sieve.keep_flag()?;
    let duration = sieve.keep_flag()?;
    let not_restricted = sieve.keep_flag()?;
    if not_restricted {
        sieve.reserved()?;
    } else {
        sieve.keep_some(4)?;
    }
    // identifier, event id, cancel and delivery bytes, UPID type and length, type and two numbers
    let mut bytes = 4 + 4 + 1 + 1 + 2 + 3;
    if !program {
        let component_count = sieve.keep()?;
        bytes += 1 + 6 * component_count;
        for _ in 0..component_count {
            sieve.keep()?;
            sieve.reserved()?;
            sieve.keep()?;
        }
    }
    if duration {
        bytes += 5;
        sieve.keep()?;
    }
    sieve.keep()?;
    let upid_length = sieve.keep()?;
    bytes += upid_length;
    sieve.keep_some(upid_length + 3)?;
    // sub_segment_num and sub_segments_expected, where there are bytes for them
    sieve.keep_some(length.checked_sub(bytes)?)
}

#[cfg(test)]
mod tests;
