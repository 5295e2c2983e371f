//! What is timed. A ring is one section in eight variants that differ in pts_adjustment and the CRC
//! alone, so that no call can be answered from the one before it; the day has many different cues.

pub mod build;
pub mod day;
pub mod random;
pub mod shapes;

use crate::cue::Cue;
use random::Chance;
use second::text::text_to_section;

/// How many variants a ring has: few enough that the longest sections stay in the fastest cache.
const RING: u8 = 8;

/// 004's cue: a time signal and one segmentation descriptor.
const CUE: &str = "/DA0AAAAAAAAAAAABQb+ADAQ6QAeAhxDVUVJQAAAO3/PAAEUrEoICAAAAAAg+2UBNAAANvrtoQ==";

/// 003's insert, with the `+` that its text lost.
const INSERT: &str = "/DAhAAAAAAAAAP/wEAUAAAHAf+9/fgAg9YDAAAAAAAA25aoh";

pub struct Ring {
    pub name: String,
    /// How many bytes each section has.
    pub bytes: usize,
    pub cues: Vec<Cue>,
}

impl Ring {
    fn new(name: impl Into<String>, section: Vec<u8>) -> Ring {
        Ring::changed(name, section, |_| {})
    }

    /// Each variant is changed once more, behind its CRC.
    fn changed(name: impl Into<String>, section: Vec<u8>, change: fn(&mut Vec<u8>)) -> Ring {
        let cues = (0..RING).map(|number| {
            let mut section = variant(&section, number);
            change(&mut section);
            Cue::of_section(section)
        });
        Ring {
            name: name.into(),
            bytes: section.len(),
            cues: cues.collect(),
        }
    }
}

/// How many of the kinds are accepted and not sealed; they stand first.
pub const ACCEPTED_KINDS: usize = 9;

/// Each kind of section, the sealed and the refused ones last.
pub fn kinds() -> Vec<Ring> {
    let wrong_descriptor = build::known(0, &[0, 0, 1]);
    vec![
        Ring::new("null", build::stuffing(20)),
        Ring::new("insert (003)", section_of(INSERT)),
        Ring::new("insert, 4 components", build::component_insert(4)),
        Ring::new("time signal, 1 descriptor (004)", section_of(CUE)),
        Ring::new("time signal, 3 descriptors", build::signal(3)),
        Ring::new("time signal, 10 descriptors", build::signal(10)),
        Ring::new("schedule, 10 events", build::schedule(10)),
        Ring::new("private, 40 bytes", build::private(40)),
        Ring::new("unknown command, 40 bytes", build::unknown(40)),
        Ring::new("sealed, 40 bytes", build::sealed(40)),
        Ring::changed("refused: CRC (004)", section_of(CUE), |section| {
            *section.last_mut().expect("a section has bytes") ^= 1;
        }),
        Ring::new(
            "refused: DESCRIPTOR, the third",
            build::section(
                0x06,
                &build::TIME,
                &[build::two_descriptors(), wrong_descriptor].concat(),
                0,
            ),
        ),
        Ring::changed("refused: TABLE (004)", section_of(CUE), |section| {
            section[0] = 0xFD;
        }),
    ]
}

/// Time signals full of descriptors of every kind, by length; the shortest has none.
pub fn lengths() -> Vec<Ring> {
    let mut rings = vec![Ring::new("null", build::stuffing(20))];
    for bytes in [55, 100, 200, 500, 1_000, 2_000, 4_096] {
        rings.push(Ring::new("descriptors", build::descriptors(bytes)));
    }
    rings.push(Ring::new("longest sheet", build::longest_sheet()));
    rings
}

/// The same lengths, and inserts of one shape that are all different: a reader whose branches go by
/// characters cannot learn these.
pub fn texts() -> Vec<Ring> {
    let mut rings = lengths();
    let mut chance = Chance::new(1);
    let inserts = (0..2_000).map(|_| Cue::of_section(random::timed_insert(&mut chance)));
    let cues: Vec<_> = inserts.collect();
    rings.push(Ring {
        name: "2,000 different inserts".to_string(),
        bytes: cues[0].section.len(),
        cues,
    });
    rings
}

fn section_of(text: &str) -> Vec<u8> {
    text_to_section(text.as_bytes(), usize::MAX).expect("the text is base64")
}

/// The section with another pts_adjustment; number 0 leaves it as it is.
fn variant(section: &[u8], number: u8) -> Vec<u8> {
    let mut section = section.to_vec();
    section[8] ^= number;
    build::put_crc(&mut section);
    section
}
