//! Limits, as in `include/timpanimist.h`.

/// Bytes of the longest section.
pub const LONGEST_SECTION: usize = 4096;
/// Characters of the longest text.
pub const LONGEST_TEXT: usize = 5464;
/// Bytes that a text can have, which is more than a section can.
pub const MOST_TEXT_BYTES: usize = 4098;
/// Numbers of the longest field sheet, by counting and not by proof (docs/SHEET.md).
pub const MOST_SHEET: usize = 4554;
/// Bytes of the longest answer line, its newline among them.
pub const LONGEST_LINE: usize = 23;

/// Numbers of a turn over lines.
pub(crate) const TURN: usize = 3;

// The most numbers of each typed answer.
pub(crate) const MOST_COMMAND: usize = 12;
pub(crate) const MOST_INSERT_COMPONENT: usize = 3;
pub(crate) const MOST_SCHEDULE_EVENT: usize = 11;
pub(crate) const MOST_EVENT_COMPONENT: usize = 2;
pub(crate) const MOST_PRIVATE_BYTE: usize = 1;
pub(crate) const MOST_KNOWN_COUNT: usize = 1;
pub(crate) const MOST_KNOWN_DESCRIPTOR: usize = 19;
pub(crate) const MOST_DTMF_CHAR: usize = 1;
pub(crate) const MOST_SEGMENTATION_COMPONENT: usize = 2;
pub(crate) const MOST_AUDIO_COMPONENT: usize = 5;
pub(crate) const MOST_UPID: usize = 2;
pub(crate) const MOST_BREAK: usize = 2;
pub(crate) const MOST_EFFECTIVE_TIME: usize = 2;
pub(crate) const MOST_DVB: usize = 1;
pub(crate) const MOST_DASH_DURATION: usize = 2;
pub(crate) const MOST_BILL_LABEL: usize = 3;

#[cfg(test)]
mod tests {
    //! The longest answer of each kind has as many numbers as its limit says.

    use super::*;
    use crate::{ffi, section_of_sheet, Refusal};

    /// A section with the numbers of its command and of its descriptors behind the header.
    fn section(numbers: &[u64]) -> Vec<u8> {
        let header = [0xFC, 0, 0, 3, 0, 0, 0, 0, 0, 0xFFF, 0xFFF];
        section_of_sheet(&[&header, numbers].concat()).expect("a sheet")
    }

    /// The question fills room for `most` and is refused in less.
    fn most(most: usize, ask: impl Fn(&mut [u64]) -> u64) {
        let mut out = [0; MOST_KNOWN_DESCRIPTOR];
        assert_eq!(ask(&mut out[..most]), most as u64);
        let refused = ask(&mut out[..most - 1]);
        assert_eq!(crate::refusal::counted(refused), Err(Refusal::Room));
    }

    #[test]
    fn commands() {
        let program = [100, 0, 127, 1, 1, 1, 0, 15, 1, 63, 9, 1, 63, 90, 1, 2, 3];
        let program = section(&[&[5], &program[..], &[0]].concat());
        most(MOST_COMMAND, |out| ffi::command(&program, out));
        let components = [
            100, 0, 127, 1, 0, 1, 0, 15, 1, 7, 1, 63, 9, 1, 63, 90, 1, 2, 3,
        ];
        let components = section(&[&[5], &components[..], &[0]].concat());
        most(MOST_COMMAND, |out| ffi::command(&components, out));
        most(MOST_INSERT_COMPONENT, |out| {
            ffi::insert_component(&components, 0, out)
        });
        let event = [1, 200, 0, 127, 1, 0, 1, 31, 1, 7, 9, 1, 63, 90, 1, 2, 3];
        let schedule = section(&[&[4], &event[..], &[0]].concat());
        most(MOST_SCHEDULE_EVENT, |out| {
            ffi::schedule_event(&schedule, 0, out)
        });
        most(MOST_EVENT_COMPONENT, |out| {
            ffi::event_component(&schedule, 0, 0, out)
        });
    }

    /// By components, restricted, with a duration, a UPID of two bytes and sub-segments.
    #[rustfmt::skip]
    const SEGMENTATION: [u64; 27] = [
        2, 31, 0x4355_4549, 8, 0, 127, 0, 1, 0, 1, 1, 1, 3, 1, 7, 127, 45, 90, 9, 2, 65, 66, 0x34, 1, 2, 3, 4,
    ];
    const AUDIO: [u64; 10] = [4, 10, 0x4355_4549, 1, 15, 1, 0x656E67, 2, 9, 1];

    #[test]
    fn descriptors() {
        let section = section(&[&[6, 1, 63, 9, 45], &SEGMENTATION[..], &AUDIO].concat());
        most(MOST_KNOWN_COUNT, |out| ffi::known_count(&section, out));
        most(MOST_KNOWN_DESCRIPTOR, |out| {
            ffi::known_descriptor(&section, 0, out)
        });
        most(MOST_SEGMENTATION_COMPONENT, |out| {
            ffi::segmentation_component(&section, 0, 0, out)
        });
        most(MOST_AUDIO_COMPONENT, |out| {
            ffi::audio_component(&section, 1, 0, out)
        });
        most(MOST_UPID, |out| ffi::upid(&section, 0, out));
        most(MOST_BREAK, |out| ffi::break_answer(&section, out));
        most(MOST_EFFECTIVE_TIME, |out| {
            ffi::effective_time(&section, out)
        });
        most(MOST_DVB, |out| ffi::dvb(&section, out));
        most(MOST_DASH_DURATION, |out| ffi::dash_duration(&section, out));
        most(MOST_BILL_LABEL, |out| {
            ffi::bill_label(&section, b"House", out)
        });
    }
}
