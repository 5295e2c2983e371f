//! Every cue of examples/cues.txt with each bit changed, its CRC put right: no answer contradicts another, and none
//! makes the wrapper panic.

use std::fs;
use std::path::Path;

use timpanimist::*;

fn sections() -> Vec<Vec<u8>> {
    let cues = Path::new(env!("CARGO_MANIFEST_DIR")).join("../examples/cues.txt");
    let cues = fs::read_to_string(cues).expect("the cues");
    let texts = cues.lines().filter(|line| !line.starts_with('#'));
    texts
        .filter_map(|text| text_to_section(text.as_bytes()).ok())
        .collect()
}

fn with_its_crc(mut section: Vec<u8>) -> Vec<u8> {
    if let Some(end) = section.len().checked_sub(4) {
        let crc = crc32(&section[..end]);
        section[end..].copy_from_slice(&crc.to_be_bytes());
    }
    section
}

#[test]
fn each_bit_changed() {
    let (mut accepted, mut refused) = (0, 0);
    for section in sections() {
        for bit in 0..section.len() * 8 {
            let mut changed = section.clone();
            changed[bit / 8] ^= 0x80 >> (bit % 8);
            let changed = with_its_crc(changed);
            match accept(&changed) {
                Ok(()) => accepted += 1,
                Err(_) => refused += 1,
            }
            ask(&changed);
        }
    }
    assert!(
        accepted > 1000 && refused > 1000,
        "{accepted} accepted, {refused} refused"
    );
}

/// Asks everything of a section.
fn ask(section: &[u8]) {
    match accept(section) {
        Err(refusal) => ask_refused(section, refusal),
        Ok(()) => {
            let sheet = sheet(section).expect("an accepted section has a sheet");
            assert_eq!(section_of_sheet(&sheet).as_deref(), Ok(section));
            match command(section) {
                Err(refusal) => ask_sealed(section, refusal),
                Ok(command) => ask_command(section, command),
            }
        }
    }
}

fn ask_refused(section: &[u8], refusal: Refusal) {
    assert_eq!(sheet(section), Err(refusal));
    assert_eq!(command(section), Err(refusal));
    assert_eq!(known_count(section), Err(refusal));
    assert_eq!(break_answer(section), Err(refusal));
    assert_eq!(effective_time(section), Err(refusal));
    assert_eq!(dvb(section), Err(refusal));
    assert_eq!(label(section, b"House"), Label::House(b"House"));
}

fn ask_sealed(section: &[u8], refusal: Refusal) {
    assert_eq!(refusal, Refusal::Sealed);
    assert_eq!(known_count(section), Err(refusal));
    assert_eq!(effective_time(section), Err(refusal));
    assert_eq!(dvb(section), Err(refusal));
    assert_eq!(break_answer(section), Ok(Break::Unread));
}

fn ask_command(section: &[u8], command: Command) {
    let counted = |count: Result<usize, Refusal>| count.expect("it is not sealed");
    let components = counted(insert_components(section).map(Iterator::count));
    let events = counted(schedule_events(section).map(Iterator::count));
    let bytes = counted(private_bytes(section).map(Iterator::count));
    let told = match command {
        Command::Schedule { splice_count } => (0, splice_count.into(), 0),
        Command::Insert(insert) => (listed(insert.mode), 0, 0),
        Command::Private { byte_count, .. } => (0, 0, byte_count),
        _ => (0, 0, 0),
    };
    assert_eq!((components, events, bytes), told);
    for (n, event) in schedule_events(section)
        .expect("it is not sealed")
        .enumerate()
    {
        let told = match event {
            Event::Scheduled(ScheduledEvent {
                time: EventTime::Components { component_count },
                ..
            }) => component_count.into(),
            _ => 0,
        };
        assert_eq!(
            counted(event_components(section, n).map(Iterator::count)),
            told
        );
    }
    let known: Vec<_> = known_descriptors(section)
        .expect("it is not sealed")
        .collect();
    assert_eq!(known_count(section), Ok(known.len()));
    known
        .into_iter()
        .enumerate()
        .for_each(|(n, one)| ask_descriptor(section, n, one));
}

fn ask_descriptor(section: &[u8], n: usize, descriptor: Descriptor) {
    let counted = |count: Result<usize, Refusal>| count.expect("it is not sealed");
    let chars = counted(dtmf_chars(section, n).map(Iterator::count));
    let segmented = counted(segmentation_components(section, n).map(Iterator::count));
    let heard = counted(audio_components(section, n).map(Iterator::count));
    let upid = upid(section, n).map(<[u8]>::len);
    let told = match descriptor {
        Descriptor::Dtmf { dtmf_count, .. } => (dtmf_count.into(), 0, 0, Err(Refusal::NotHere)),
        Descriptor::Segmentation(said) => (
            0,
            listed(said.mode),
            0,
            Ok(said.segmentation_upid_length.into()),
        ),
        Descriptor::Audio { audio_count } => (0, 0, audio_count.into(), Err(Refusal::NotHere)),
        _ => (0, 0, 0, Err(Refusal::NotHere)),
    };
    assert_eq!((chars, segmented, heard, upid), told);
}

fn listed(mode: Mode) -> usize {
    match mode {
        Mode::Program => 0,
        Mode::Components { component_count } => component_count.into(),
    }
}
