//! A known descriptor and its parts out of the numbers of an answer.

use super::answers::*;
use crate::numbers::{no_case, Numbers, Read};

impl Read for Descriptor {
    fn read(numbers: &mut Numbers) -> Descriptor {
        match numbers.case() {
            0 => Descriptor::Avail {
                provider_avail_id: numbers.read(),
            },
            1 => Descriptor::Dtmf {
                preroll: numbers.read(),
                dtmf_count: numbers.read(),
            },
            2 => Descriptor::Segmentation(numbers.read()),
            3 => Descriptor::CancelledSegmentation {
                segmentation_event_id: numbers.read(),
            },
            4 => Descriptor::Time {
                tai_seconds: numbers.read(),
                tai_ns: numbers.read(),
                utc_offset: numbers.read(),
            },
            5 => Descriptor::Audio {
                audio_count: numbers.read(),
            },
            case => no_case("known descriptor", case),
        }
    }
}

impl Read for Segmentation {
    fn read(numbers: &mut Numbers) -> Segmentation {
        Segmentation {
            segmentation_event_id: numbers.read(),
            mode: numbers.read(),
            delivery: numbers.read(),
            duration: numbers.read(),
            segmentation_upid_type: numbers.read(),
            segmentation_upid_length: numbers.read(),
            segmentation_type_id: numbers.read(),
            segment_num: numbers.read(),
            segments_expected: numbers.read(),
            sub_segments: numbers.read(),
        }
    }
}

impl Read for Delivery {
    fn read(numbers: &mut Numbers) -> Delivery {
        match numbers.case() {
            0 => Delivery::NotRestricted,
            1 => Delivery::Restricted {
                web_delivery_allowed_flag: numbers.read(),
                no_regional_blackout_flag: numbers.read(),
                archive_allowed_flag: numbers.read(),
                device_restrictions: numbers.read(),
            },
            case => no_case("delivery", case),
        }
    }
}

impl Read for Duration {
    fn read(numbers: &mut Numbers) -> Duration {
        match numbers.case() {
            0 => Duration::Absent,
            1 => Duration::Present(numbers.read()),
            case => no_case("duration", case),
        }
    }
}

impl Read for SubSegments {
    fn read(numbers: &mut Numbers) -> SubSegments {
        match numbers.case() {
            0 => SubSegments::Absent,
            1 => SubSegments::Present {
                sub_segment_num: numbers.read(),
                sub_segments_expected: numbers.read(),
            },
            case => no_case("sub-segments", case),
        }
    }
}

impl Read for SegmentationComponent {
    fn read(numbers: &mut Numbers) -> SegmentationComponent {
        SegmentationComponent {
            component_tag: numbers.read(),
            pts_offset: numbers.read(),
        }
    }
}

impl Read for AudioComponent {
    fn read(numbers: &mut Numbers) -> AudioComponent {
        AudioComponent {
            component_tag: numbers.read(),
            iso_code: numbers.read(),
            bit_stream_mode: numbers.read(),
            num_channels: numbers.read(),
            full_srvc_audio: numbers.read(),
        }
    }
}
