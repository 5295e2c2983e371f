//! The uncancelled segmentation descriptors of a section: the break and the DASH duration are told by
//! these alone.

use crate::section::{Body, Descriptor, Segment};

/// What they hold, in order.
pub fn segments(descriptors: &[Descriptor]) -> impl Iterator<Item = &Segment> {
    let bodies = descriptors.iter().map(|descriptor| &descriptor.body);
    bodies.filter_map(|body| match body {
        Body::Segmentation(segmentation) => segmentation.segment.as_ref(),
        _ => None,
    })
}

/// The longest duration that one of these segments carries. One of 0 ticks is a duration; where none
/// is carried there is no longest.
pub fn longest<'a>(segments: impl IntoIterator<Item = &'a Segment>) -> Option<u64> {
    let durations = segments
        .into_iter()
        .filter_map(|segment| segment.segmentation_duration);
    durations.max()
}
