//! The first DVB check: the command's type alone counts.

use super::*;

#[test]
fn inserts_and_time_signals_pass() {
    let sections = [
        with(0x05, "00000009 FF", &[]),
        with(0x05, "00000009 7F DF 0002 03 04", &[]),
        with(0x06, "7F", &[]),
        with(0x06, "FE00000009", &[]),
        signal(&[known(&segment(0x34, None, ""))]),
    ];
    for section in sections {
        assert_eq!(dvb(&section), Ok(Dvb::Yes));
        assert_eq!(flat(dvb(&section)), Ok(vec![1]));
    }
}

#[test]
fn every_other_type_does_not() {
    let mut sections = vec![
        with(0x00, "", &[]),
        with(0x07, "", &[]),
        with(0x04, "00", &[]),
        with(0xFF, "41424344", &[]),
    ];
    let unknown = (0..=255).filter(|kind| ![0, 4, 5, 6, 7, 255].contains(kind));
    sections.extend(unknown.map(|kind| with(kind, "7F", &[])));
    for section in sections {
        assert_eq!(dvb(&section), Ok(Dvb::No));
        assert_eq!(flat(dvb(&section)), Ok(vec![0]));
    }
}

#[test]
fn rows_1_to_10_and_sealed_refuse() {
    for (section, row) in refused_sections() {
        assert_eq!(dvb(&section), Err(row));
    }
    assert_eq!(dvb(&sealed(&signal(&[]))), Err(SEALED));
}
