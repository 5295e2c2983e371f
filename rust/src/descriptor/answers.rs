//! What a known descriptor says, by case.

use crate::{EventId, Mode, Ticks};

/// A known descriptor (Table 16).
#[derive(Clone, Copy, Debug, PartialEq, Eq, Hash)]
pub enum Descriptor {
    Avail {
        provider_avail_id: u32,
    },
    /// Its characters are asked by [`dtmf_chars`](crate::dtmf_chars).
    Dtmf {
        preroll: u8,
        dtmf_count: u8,
    },
    Segmentation(Segmentation),
    CancelledSegmentation {
        segmentation_event_id: EventId,
    },
    Time {
        tai_seconds: u64,
        tai_ns: u32,
        utc_offset: u16,
    },
    /// Its components are asked by [`audio_components`](crate::audio_components).
    Audio {
        audio_count: u8,
    },
}

/// A segmentation descriptor that is not cancelled (Table 20). Its UPID bytes are asked by [`upid`](crate::upid).
#[derive(Clone, Copy, Debug, PartialEq, Eq, Hash)]
pub struct Segmentation {
    pub segmentation_event_id: EventId,
    /// The components are asked by [`segmentation_components`](crate::segmentation_components).
    pub mode: Mode,
    pub delivery: Delivery,
    pub duration: Duration,
    pub segmentation_upid_type: u8,
    pub segmentation_upid_length: u8,
    pub segmentation_type_id: u8,
    pub segment_num: u8,
    pub segments_expected: u8,
    pub sub_segments: SubSegments,
}

/// Where a segment may be delivered.
#[derive(Clone, Copy, Debug, PartialEq, Eq, Hash)]
pub enum Delivery {
    NotRestricted,
    Restricted {
        web_delivery_allowed_flag: bool,
        no_regional_blackout_flag: bool,
        archive_allowed_flag: bool,
        device_restrictions: u8,
    },
}

/// How long a segment lasts. An absent duration is not one of 0 ticks.
#[derive(Clone, Copy, Debug, PartialEq, Eq, Hash)]
pub enum Duration {
    Absent,
    /// This segmentation_duration.
    Present(Ticks),
}

/// Which sub-segment this is, of how many.
#[derive(Clone, Copy, Debug, PartialEq, Eq, Hash)]
pub enum SubSegments {
    Absent,
    Present {
        sub_segment_num: u8,
        sub_segments_expected: u8,
    },
}

/// A component of a segmentation descriptor.
#[derive(Clone, Copy, Debug, PartialEq, Eq, Hash)]
pub struct SegmentationComponent {
    pub component_tag: u8,
    pub pts_offset: Ticks,
}

/// A component of an audio descriptor (Table 28).
#[derive(Clone, Copy, Debug, PartialEq, Eq, Hash)]
pub struct AudioComponent {
    pub component_tag: u8,
    pub iso_code: u32,
    pub bit_stream_mode: u8,
    pub num_channels: u8,
    pub full_srvc_audio: bool,
}
