//! Time signals with several segmentation descriptors of mixed types: the longest duration of those
//! that open a break is often not the longest of all.

use super::descriptor::Descriptor;
use super::segmentation::{Segmentation, OPENING_TYPES};
use super::{section, Built, Command, Random};

/// The start and the end of a program.
const PROGRAM_TYPES: [u8; 2] = [0x10, 0x11];

/// The ends that belong to what opens a break, and others that stand beside breaks: content is named,
/// programs overlap, chapters, promos, overlays, events and networks start and end.
const OTHER_TYPES: [u8; 14] = [
    0x23, 0x31, 0x33, 0x35, 0x37, 0x01, 0x17, 0x20, 0x3C, 0x38, 0x3A, 0x40, 0x50, 0x51,
];

/// The longest duration that the field can hold.
const MOST: u64 = (1 << 40) - 1;

pub struct Mixed {
    pub built: Built,
    /// The known segmentation descriptors, in order.
    segmentations: Vec<Segmentation>,
}

/// A time signal with two to five of them, and unknown descriptors between.
pub fn mixed_signal(random: &mut Random) -> Mixed {
    let mut segmentations = Vec::new();
    let mut list = Vec::new();
    for _ in 0..random.within(2..=5) {
        let chosen = one_of_them(random, &segmentations);
        if random.once_in(3) {
            list.push(Descriptor::unknown(random));
        }
        list.push(chosen.descriptor(random));
        segmentations.push(chosen);
    }
    let command = Command::time_signal(random);
    let built = section(random, command, list, &[]);
    Mixed {
        built,
        segmentations,
    }
}

fn one_of_them(random: &mut Random, before: &[Segmentation]) -> Segmentation {
    let type_id = match random.within(0..=3) {
        0 | 1 => random.one_of(&OPENING_TYPES),
        2 => random.one_of(&PROGRAM_TYPES),
        _ => random.one_of(&OTHER_TYPES),
    };
    let mut chosen = Segmentation::of_type(random, type_id);
    chosen.duration = duration(random, before);
    chosen
}

/// None, an edge, any, or one that stands before: as it is, or with one of its bits turned.
fn duration(random: &mut Random, before: &[Segmentation]) -> Option<u64> {
    let earlier: Vec<u64> = before.iter().filter_map(|it| it.duration).collect();
    match random.within(0..=7) {
        0 | 1 => None,
        2 => Some(0),
        3 => Some(MOST),
        4 | 5 if !earlier.is_empty() => Some(random.one_of(&earlier)),
        6 if !earlier.is_empty() => Some(random.one_of(&earlier) ^ 1 << random.within(0..=39)),
        _ => Some(random.field(40)),
    }
}

impl Mixed {
    /// The numbers of the break answer, told by what was put in.
    pub fn break_numbers(&self) -> Vec<u64> {
        let opening = |it: &&Segmentation| OPENING_TYPES.contains(&it.type_id);
        let opening: Vec<_> = self.uncancelled().filter(opening).collect();
        match longest(&opening) {
            _ if opening.is_empty() => vec![0],
            Some(ticks) => vec![1, ticks],
            None => vec![2],
        }
    }

    /// The numbers of the DASH duration, told in the same way.
    pub fn dash_numbers(&self) -> Vec<u64> {
        let all: Vec<_> = self.uncancelled().collect();
        longest(&all).map_or(vec![0], |ticks| vec![1, ticks])
    }

    fn uncancelled(&self) -> impl Iterator<Item = &Segmentation> {
        self.segmentations.iter().filter(|it| !it.cancelled)
    }
}

fn longest(segmentations: &[&Segmentation]) -> Option<u64> {
    segmentations.iter().filter_map(|it| it.duration).max()
}
