//! segmentation_descriptor(), table 20: what stands behind its identifier.

use super::cursor::Cursor;
use super::items::Items;

/// The types that may carry sub_segment_num and sub_segments_expected (table 20's condition).
pub const SUB_SEGMENT_TYPES: [u8; 8] = [0x30, 0x32, 0x34, 0x36, 0x38, 0x3A, 0x44, 0x46];

#[derive(Clone, Debug, PartialEq, Eq)]
pub struct Segmentation {
    pub segmentation_event_id: u32,
    pub segmentation_event_cancel_indicator: bool,
    pub reserved: u8,
    /// There exactly when the event is not cancelled.
    pub segment: Option<Segment>,
}

#[derive(Clone, Debug, PartialEq, Eq)]
pub struct Segment {
    pub program_segmentation_flag: bool,
    pub segmentation_duration_flag: bool,
    pub delivery_not_restricted_flag: bool,
    pub delivery: Delivery,
    /// There exactly when the segmentation is not of the program.
    pub components: Option<Vec<SegmentComponent>>,
    /// There exactly when segmentation_duration_flag is 1.
    pub segmentation_duration: Option<u64>,
    pub segmentation_upid_type: u8,
    pub segmentation_upid: Vec<u8>,
    pub segmentation_type_id: u8,
    pub segment_num: u8,
    pub segments_expected: u8,
    /// sub_segment_num and sub_segments_expected, where the descriptor has two bytes left.
    pub sub_segment: Option<(u8, u8)>,
}

/// The five bits behind delivery_not_restricted_flag.
#[derive(Clone, Debug, PartialEq, Eq)]
pub enum Delivery {
    Restricted {
        web_delivery_allowed_flag: bool,
        no_regional_blackout_flag: bool,
        archive_allowed_flag: bool,
        device_restrictions: u8,
    },
    NotRestricted {
        reserved: u8,
    },
}

#[derive(Clone, Debug, PartialEq, Eq)]
pub struct SegmentComponent {
    pub component_tag: u8,
    pub reserved: u8,
    pub pts_offset: u64,
}

impl Segmentation {
    pub fn read(from: &mut Cursor) -> Option<Segmentation> {
        let segmentation_event_id = from.take(32)?;
        let segmentation_event_cancel_indicator = from.flag()?;
        let reserved = from.take(7)?;
        let segment = if segmentation_event_cancel_indicator {
            None
        } else {
            Some(Segment::read(from)?)
        };
        Some(Segmentation {
            segmentation_event_id,
            segmentation_event_cancel_indicator,
            reserved,
            segment,
        })
    }

    pub fn list(&self, to: &mut Items) {
        let cancelled = self.segmentation_event_cancel_indicator;
        to.number("segmentation_event_id", 32, self.segmentation_event_id);
        to.number("segmentation_event_cancel_indicator", 1, cancelled);
        to.number("reserved", 7, self.reserved);
        if let Some(segment) = &self.segment {
            segment.list(to);
        }
    }
}

impl Segment {
    fn read(from: &mut Cursor) -> Option<Segment> {
        let program_segmentation_flag = from.flag()?;
        let segmentation_duration_flag = from.flag()?;
        let delivery_not_restricted_flag = from.flag()?;
        let delivery = if delivery_not_restricted_flag {
            let reserved = from.take(5)?;
            Delivery::NotRestricted { reserved }
        } else {
            Delivery::Restricted {
                web_delivery_allowed_flag: from.flag()?,
                no_regional_blackout_flag: from.flag()?,
                archive_allowed_flag: from.flag()?,
                device_restrictions: from.take(2)?,
            }
        };
        let mut components = None;
        if !program_segmentation_flag {
            let component_count = from.take(8)?;
            components = Some(from.list(component_count, SegmentComponent::read)?);
        }
        let mut segmentation_duration = None;
        if segmentation_duration_flag {
            segmentation_duration = Some(from.take(40)?);
        }
        let segmentation_upid_type = from.take(8)?;
        let segmentation_upid_length = from.take(8)?;
        let segmentation_upid = from.bytes(segmentation_upid_length)?;
        let segmentation_type_id = from.take(8)?;
        let segment_num = from.take(8)?;
        let segments_expected = from.take(8)?;
        let mut sub_segment = None;
        if SUB_SEGMENT_TYPES.contains(&segmentation_type_id) && from.left() == 2 {
            sub_segment = Some((from.take(8)?, from.take(8)?));
        }
        Some(Segment {
            program_segmentation_flag,
            segmentation_duration_flag,
            delivery_not_restricted_flag,
            delivery,
            components,
            segmentation_duration,
            segmentation_upid_type,
            segmentation_upid,
            segmentation_type_id,
            segment_num,
            segments_expected,
            sub_segment,
        })
    }

    fn list(&self, to: &mut Items) {
        let not_restricted = self.delivery_not_restricted_flag;
        to.number(
            "program_segmentation_flag",
            1,
            self.program_segmentation_flag,
        );
        to.number(
            "segmentation_duration_flag",
            1,
            self.segmentation_duration_flag,
        );
        to.number("delivery_not_restricted_flag", 1, not_restricted);
        self.delivery.list(to);
        if let Some(components) = &self.components {
            to.count("component_count", 8, components);
            for component in components {
                component.list(to);
            }
        }
        if let Some(segmentation_duration) = self.segmentation_duration {
            to.number("segmentation_duration", 40, segmentation_duration);
        }
        to.number("segmentation_upid_type", 8, self.segmentation_upid_type);
        to.count("segmentation_upid_length", 8, &self.segmentation_upid);
        to.bytes("segmentation_upid", &self.segmentation_upid);
        to.number("segmentation_type_id", 8, self.segmentation_type_id);
        to.number("segment_num", 8, self.segment_num);
        to.number("segments_expected", 8, self.segments_expected);
        if let Some((sub_segment_num, sub_segments_expected)) = self.sub_segment {
            to.number("sub_segment_num", 8, sub_segment_num);
            to.number("sub_segments_expected", 8, sub_segments_expected);
        }
    }
}

impl Delivery {
    fn list(&self, to: &mut Items) {
        match self {
            Delivery::Restricted {
                web_delivery_allowed_flag,
                no_regional_blackout_flag,
                archive_allowed_flag,
                device_restrictions,
            } => {
                to.number("web_delivery_allowed_flag", 1, *web_delivery_allowed_flag);
                to.number("no_regional_blackout_flag", 1, *no_regional_blackout_flag);
                to.number("archive_allowed_flag", 1, *archive_allowed_flag);
                to.number("device_restrictions", 2, *device_restrictions);
            }
            Delivery::NotRestricted { reserved } => to.number("reserved", 5, *reserved),
        }
    }
}

impl SegmentComponent {
    fn read(from: &mut Cursor) -> Option<SegmentComponent> {
        Some(SegmentComponent {
            component_tag: from.take(8)?,
            reserved: from.take(7)?,
            pts_offset: from.take(33)?,
        })
    }

    fn list(&self, to: &mut Items) {
        to.group("component", |to| {
            to.number("component_tag", 8, self.component_tag);
            to.number("reserved", 7, self.reserved);
            to.number("pts_offset", 33, self.pts_offset);
        });
    }
}
