//! A segmentation descriptor that is not cancelled, and its components.

use super::descriptor::known;
use super::entries::{Entries, Reading};
use super::mode::Mode;
use super::{at, count};
use crate::refusal::NOTHERE;
use crate::section::{self, Apart, Body, Delivery, Segment};

#[derive(Clone, Debug, PartialEq, Eq)]
pub struct Segmentation {
    pub segmentation_event_id: u32,
    pub mode: Mode,
    /// Absent where delivery is not restricted.
    pub delivery_restrictions: Option<DeliveryRestrictions>,
    /// In ticks.
    pub segmentation_duration: Option<u64>,
    pub segmentation_upid_type: u8,
    pub segmentation_upid_length: u64,
    pub segmentation_type_id: u8,
    pub segment_num: u8,
    pub segments_expected: u8,
    pub sub_segments: Option<SubSegments>,
}

#[derive(Clone, Copy, Debug, PartialEq, Eq)]
pub struct DeliveryRestrictions {
    pub web_delivery_allowed_flag: bool,
    pub no_regional_blackout_flag: bool,
    pub archive_allowed_flag: bool,
    pub device_restrictions: u8,
}

#[derive(Clone, Copy, Debug, PartialEq, Eq)]
pub struct SubSegments {
    pub sub_segment_num: u8,
    pub sub_segments_expected: u8,
}

#[derive(Clone, Debug, PartialEq, Eq)]
pub struct SegmentationComponent {
    pub component_tag: u8,
    pub pts_offset: u64,
}

impl Apart<'_> {
    /// Segmentation component `m` of known descriptor `n`.
    pub fn segmentation_component(&self, n: u64, m: u64) -> Result<SegmentationComponent, u8> {
        let known = known(self.clear()?);
        let segment = uncancelled(at(&known, n)?).ok_or(NOTHERE)?;
        let components = segment.components.as_deref().unwrap_or(&[]);
        at(components, m).map(SegmentationComponent::of)
    }
}

/// What an uncancelled segmentation descriptor holds behind its event; nothing for any other.
pub fn uncancelled(body: &Body) -> Option<&Segment> {
    match body {
        Body::Segmentation(segmentation) => segmentation.segment.as_ref(),
        _ => None,
    }
}

impl Segmentation {
    pub fn of(segmentation_event_id: u32, segment: &Segment) -> Segmentation {
        Segmentation {
            segmentation_event_id,
            mode: Mode::of(&segment.components),
            delivery_restrictions: DeliveryRestrictions::of(&segment.delivery),
            segmentation_duration: segment.segmentation_duration,
            segmentation_upid_type: segment.segmentation_upid_type,
            segmentation_upid_length: count(&segment.segmentation_upid),
            segmentation_type_id: segment.segmentation_type_id,
            segment_num: segment.segment_num,
            segments_expected: segment.segments_expected,
            sub_segments: segment.sub_segment.map(SubSegments::of),
        }
    }
}

impl DeliveryRestrictions {
    fn of(delivery: &Delivery) -> Option<DeliveryRestrictions> {
        match *delivery {
            Delivery::NotRestricted { .. } => None,
            Delivery::Restricted {
                web_delivery_allowed_flag,
                no_regional_blackout_flag,
                archive_allowed_flag,
                device_restrictions,
            } => Some(DeliveryRestrictions {
                web_delivery_allowed_flag,
                no_regional_blackout_flag,
                archive_allowed_flag,
                device_restrictions,
            }),
        }
    }
}

impl SubSegments {
    fn of((sub_segment_num, sub_segments_expected): (u8, u8)) -> SubSegments {
        SubSegments {
            sub_segment_num,
            sub_segments_expected,
        }
    }
}

impl SegmentationComponent {
    fn of(read: &section::SegmentComponent) -> SegmentationComponent {
        SegmentationComponent {
            component_tag: read.component_tag,
            pts_offset: read.pts_offset,
        }
    }
}

impl Reading for Segmentation {
    fn list(&self, to: &mut Entries) {
        let restrictions = &self.delivery_restrictions;
        let duration = &self.segmentation_duration;
        to.value("segmentation_event_id", self.segmentation_event_id);
        self.mode.list(to);
        to.optional("delivery_restrictions", restrictions, |to, it| it.list(to));
        to.optional("duration", duration, |to, ticks| {
            to.value("segmentation_duration", *ticks);
        });
        to.value("segmentation_upid_type", self.segmentation_upid_type);
        to.value("segmentation_upid_length", self.segmentation_upid_length);
        to.value("segmentation_type_id", self.segmentation_type_id);
        to.value("segment_num", self.segment_num);
        to.value("segments_expected", self.segments_expected);
        to.optional("sub_segments", &self.sub_segments, |to, it| it.list(to));
    }
}

impl Reading for DeliveryRestrictions {
    fn list(&self, to: &mut Entries) {
        to.value("web_delivery_allowed_flag", self.web_delivery_allowed_flag);
        to.value("no_regional_blackout_flag", self.no_regional_blackout_flag);
        to.value("archive_allowed_flag", self.archive_allowed_flag);
        to.value("device_restrictions", self.device_restrictions);
    }
}

impl Reading for SubSegments {
    fn list(&self, to: &mut Entries) {
        to.value("sub_segment_num", self.sub_segment_num);
        to.value("sub_segments_expected", self.sub_segments_expected);
    }
}

impl Reading for SegmentationComponent {
    fn list(&self, to: &mut Entries) {
        to.value("component_tag", self.component_tag);
        to.value("pts_offset", self.pts_offset);
    }
}
