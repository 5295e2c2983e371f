//! Random segmentation descriptors, each choice open to be made by hand.

use super::descriptor::Descriptor;
use super::writer::Writer;
use super::{Random, Size};

/// The types that may carry the two sub-segment bytes.
pub const SUB_SEGMENT_TYPES: [u8; 8] = [0x30, 0x32, 0x34, 0x36, 0x38, 0x3A, 0x44, 0x46];

/// The types that open a break.
pub const OPENING_TYPES: [u8; 5] = [0x22, 0x30, 0x32, 0x34, 0x36];

/// The most bytes of a body behind its identifier.
const ROOM: usize = 251;

/// What there is in the descriptor; all else in it is drawn.
#[derive(Clone)]
pub struct Segmentation {
    pub cancelled: bool,
    /// In program mode none.
    pub components: Option<usize>,
    /// In ticks, if it has one.
    pub duration: Option<u64>,
    pub upid: usize,
    pub type_id: u8,
    /// Bytes behind segments_expected.
    pub behind: usize,
}

impl Segmentation {
    pub fn any(random: &mut Random, size: Size) -> Segmentation {
        let mut chosen = Segmentation {
            cancelled: random.once_in(6),
            components: None,
            duration: any_duration(random),
            upid: 0,
            type_id: any_type(random),
            behind: 0,
        };
        if random.once_in(3) {
            chosen.components = Some(size.count(random).min(38));
        }
        chosen.behind = any_behind(random, chosen.type_id);
        let some = size.count(random);
        let upid = random.one_of(&[0, 4, 8, 12, some]);
        chosen.upid = upid.min(chosen.most_upid());
        chosen
    }

    /// One as it comes with a break: often of a type that opens one, or of a type beside these.
    pub fn of_a_cue(random: &mut Random) -> Segmentation {
        let type_id = match random.within(0..=3) {
            0 | 1 => random.one_of(&OPENING_TYPES),
            2 => random.one_of(&OPENING_TYPES) ^ 1 << random.within(0..=7),
            _ => any_type(random),
        };
        Segmentation::of_type(random, type_id)
    }

    /// A short one of this type.
    pub fn of_type(random: &mut Random, type_id: u8) -> Segmentation {
        let mut chosen = Segmentation::any(random, Size::Short);
        chosen.type_id = type_id;
        chosen.behind = any_behind(random, type_id);
        chosen
    }

    /// The longest UPID that there is room for.
    pub fn most_upid(&self) -> usize {
        let components = self.components.map_or(0, |count| 1 + 6 * count);
        let duration = self.duration.map_or(0, |_| 5);
        ROOM - (4 + 1 + 1 + components + duration + 2 + 3 + self.behind)
    }

    pub fn descriptor(&self, random: &mut Random) -> Writer {
        Descriptor::known(2, self.body(random))
    }

    /// What stands behind the identifier.
    pub fn body(&self, random: &mut Random) -> Writer {
        let mut body = Writer::default();
        body.put(32, random.field(32));
        body.put(1, u64::from(self.cancelled));
        body.put(7, random.field(7));
        if !self.cancelled {
            self.segment(random, &mut body);
        }
        body
    }

    fn segment(&self, random: &mut Random, body: &mut Writer) {
        body.put(1, u64::from(self.components.is_none()));
        body.put(1, u64::from(self.duration.is_some()));
        body.put(6, random.field(6));
        if let Some(count) = self.components {
            body.marked("component_count", 8, count as u64);
            for _ in 0..count {
                body.put(8, random.field(8));
                body.put(7, random.field(7));
                body.put(33, random.field(33));
            }
        }
        if let Some(ticks) = self.duration {
            body.put(40, ticks);
        }
        body.put(8, random.field(8));
        body.marked("segmentation_upid_length", 8, self.upid as u64);
        body.bytes(&random.bytes(self.upid));
        body.marked("segmentation_type_id", 8, u64::from(self.type_id));
        body.put(8, random.field(8));
        body.put(8, random.field(8));
        body.bytes(&random.bytes(self.behind));
    }
}

/// None half of the time.
pub fn any_duration(random: &mut Random) -> Option<u64> {
    random.once_in(2).then(|| random.field(40))
}

/// Any type, half of the time one that may carry the two bytes.
fn any_type(random: &mut Random) -> u8 {
    if random.once_in(2) {
        random.one_of(&SUB_SEGMENT_TYPES)
    } else {
        random.number() as u8
    }
}

/// The two bytes, half of the time where this type may carry them.
fn any_behind(random: &mut Random, type_id: u8) -> usize {
    if SUB_SEGMENT_TYPES.contains(&type_id) && random.once_in(2) {
        2
    } else {
        0
    }
}
