//! Each house answer held against what the typed readings and the sheet tell.

use crate::built::{any_section, cue, unsealed_section, with_crc, Size};
use crate::counts::Counts;
use crate::random;
use second::house::{Break, DashDuration, Dvb, EffectiveTime, Label};
use second::reading::{Command, Descriptor, Mode, Segmentation, Time};
use second::refusal::SEALED;
use second::section::Apart;
use second::sheet::sheet_of;

const HOUSE: &[u8] = b"a house name";

/// The place of pts_adjustment on a sheet.
const PTS_ADJUSTMENT: usize = 7;

/// The uncancelled segmentation descriptors, with their numbers among the known ones.
fn segmentations(section: &Apart) -> Vec<(u64, Segmentation)> {
    let count = section.descriptor_count().unwrap();
    let known = (0..count).map(|n| (n, section.descriptor(n).unwrap()));
    known
        .filter_map(|(n, descriptor)| match descriptor {
            Descriptor::Segmentation(segmentation) => Some((n, segmentation)),
            _ => None,
        })
        .collect()
}

fn told_break(section: &Apart, command: &Command) -> Break {
    let ticks = match command {
        Command::Unread => return Break::Unread,
        Command::Insert(insert) if insert.out_of_network_indicator => {
            insert.break_duration.map(|duration| duration.duration)
        }
        Command::TimeSignal(_) => {
            let mut opening = segmentations(section);
            opening.retain(|(_, it)| matches!(it.segmentation_type_id, 34 | 48 | 50 | 52 | 54));
            if opening.is_empty() {
                return Break::None;
            }
            longest(&opening)
        }
        _ => return Break::None,
    };
    ticks.map_or(Break::WithoutMeasure, |ticks| Break::Measured { ticks })
}

fn told_dash_duration(section: &Apart, command: &Command) -> DashDuration {
    let ticks = match command {
        Command::TimeSignal(_) => longest(&segmentations(section)),
        _ => None,
    };
    ticks.map_or(DashDuration::None, |ticks| DashDuration::Lasts { ticks })
}

fn longest(segmentations: &[(u64, Segmentation)]) -> Option<u64> {
    let mut longest = None;
    for (_, segmentation) in segmentations {
        // None is less than any duration.
        longest = longest.max(segmentation.segmentation_duration);
    }
    longest
}

fn told_time(section: &Apart, command: &Command) -> EffectiveTime {
    let time = match command {
        Command::TimeSignal(time) => *time,
        Command::Insert(insert) if insert.mode == Mode::Program => insert.time,
        _ => Time::NotGiven,
    };
    let Time::Given(pts_time) = time else {
        return EffectiveTime::None;
    };
    let sum = pts_time + sheet_of(section.bytes).unwrap()[PTS_ADJUSTMENT];
    let ticks = if sum < 1 << 33 { sum } else { sum - (1 << 33) };
    EffectiveTime::At { ticks }
}

fn told_dvb(command: &Command) -> Dvb {
    match command {
        Command::Insert(_) | Command::CancelledInsert { .. } | Command::TimeSignal(_) => Dvb::Yes,
        _ => Dvb::No,
    }
}

fn told_label<'a>(section: &Apart<'a>) -> Label<'a> {
    let first = segmentations(section)
        .into_iter()
        .find(|(_, segmentation)| segmentation.segmentation_upid_length > 0);
    match first {
        None => Label::HouseName(HOUSE),
        Some((n, _)) => {
            let upid = section.upid(n).unwrap();
            Label::Upid {
                offset: upid.offset,
                bytes: upid.bytes,
            }
        }
    }
}

/// Every house answer of any bytes is what the readings tell, or the refusal that they have.
fn same_answers(counts: &mut Counts, section: &[u8]) {
    let section = &Apart::of(section);
    let label = section.bill_label(HOUSE);
    match section.command() {
        Ok(command) => {
            let opened = told_break(section, &command);
            assert_eq!(section.break_answer(), Ok(opened));
            let lasts = told_dash_duration(section, &command);
            assert_eq!(section.dash_duration(), Ok(lasts));
            assert_eq!(section.effective_time(), Ok(told_time(section, &command)));
            assert_eq!(section.dvb(), Ok(told_dvb(&command)));
            assert_eq!(label, told_label(section));
            count(counts, opened, lasts, label);
        }
        Err(refused) => {
            let opened = if refused == SEALED {
                Ok(Break::Unread)
            } else {
                Err(refused)
            };
            assert_eq!(section.break_answer(), opened);
            assert_eq!(section.dash_duration(), Err(refused));
            assert_eq!(section.effective_time(), Err(refused));
            assert_eq!(section.dvb(), Err(refused));
            assert_eq!(label, Label::HouseName(HOUSE));
            counts.count("refused");
        }
    }
}

fn count(counts: &mut Counts, opened: Break, lasts: DashDuration, label: Label) {
    counts.count(match opened {
        Break::None => "no break",
        Break::Measured { ticks: 0 } => "a break of 0",
        Break::Measured { .. } => "a break",
        Break::WithoutMeasure => "a break without measure",
        Break::Unread => "unread",
    });
    counts.count(match lasts {
        DashDuration::None => "no DASH duration",
        DashDuration::Lasts { ticks: 0 } => "a DASH duration of 0",
        DashDuration::Lasts { .. } => "a DASH duration",
    });
    counts.count(match label {
        Label::Upid { .. } => "a UPID for a label",
        Label::HouseName(_) => "the house name",
    });
}

#[test]
fn answers_are_what_the_readings_tell() {
    let random = &mut random();
    let counts = &mut Counts::default();
    for _ in 0..5_000 {
        same_answers(counts, &any_section(random, Size::Short).bytes);
        same_answers(counts, &cue(random).bytes);
    }
    for _ in 0..10 {
        same_answers(counts, &any_section(random, Size::Long).bytes);
    }
    // A section with a byte changed is often another that is accepted.
    for _ in 0..200 {
        let section = unsealed_section(random).bytes;
        for at in 0..section.len() {
            let mut section = section.clone();
            section[at] = random.number() as u8;
            same_answers(counts, &with_crc(&section));
        }
    }
    let expected = [
        "no break",
        "a break of 0",
        "a break",
        "a break without measure",
        "unread",
        "no DASH duration",
        "a DASH duration of 0",
        "a DASH duration",
        "a UPID for a label",
        "the house name",
        "refused",
    ];
    counts.reached(&expected.map(String::from), 50);
}
