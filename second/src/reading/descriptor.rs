//! The known descriptors, counted and by number, and the short lists inside them.

use super::entries::{Entries, Reading};
use super::segmentation::Segmentation;
use super::{at, count};
use crate::refusal::NOTHERE;
use crate::section::{self, Apart, Body, Clear};

#[derive(Clone, Debug, PartialEq, Eq)]
pub enum Descriptor {
    Avail {
        provider_avail_id: u32,
    },
    Dtmf {
        preroll: u8,
        dtmf_count: u64,
    },
    Segmentation(Segmentation),
    CancelledSegmentation {
        segmentation_event_id: u32,
    },
    Time {
        tai_seconds: u64,
        tai_ns: u32,
        utc_offset: u16,
    },
    Audio {
        audio_count: u64,
    },
}

#[derive(Clone, Debug, PartialEq, Eq)]
pub struct AudioComponent {
    pub component_tag: u8,
    /// Three letters as one number of 24 bits.
    pub iso_code: u32,
    pub bit_stream_mode: u8,
    pub num_channels: u8,
    pub full_srvc_audio: bool,
}

impl Apart<'_> {
    /// How many known descriptors there are.
    pub fn descriptor_count(&self) -> Result<u64, u8> {
        Ok(count(&known(self.clear()?)))
    }

    /// Known descriptor `n`.
    pub fn descriptor(&self, n: u64) -> Result<Descriptor, u8> {
        Descriptor::of(at(&known(self.clear()?), n)?)
    }

    /// DTMF character `m` of known descriptor `n`.
    pub fn dtmf_char(&self, n: u64, m: u64) -> Result<u8, u8> {
        match at(&known(self.clear()?), n)? {
            Body::Dtmf { dtmf_chars, .. } => at(dtmf_chars, m).copied(),
            _ => Err(NOTHERE),
        }
    }

    /// Audio component `m` of known descriptor `n`.
    pub fn audio_component(&self, n: u64, m: u64) -> Result<AudioComponent, u8> {
        match at(&known(self.clear()?), n)? {
            Body::Audio { components, .. } => at(components, m).map(AudioComponent::of),
            _ => Err(NOTHERE),
        }
    }
}

/// The bodies of the known descriptors, in order.
pub fn known(clear: &Clear) -> Vec<&Body> {
    let bodies = clear.descriptors.iter().map(|descriptor| &descriptor.body);
    bodies
        .filter(|body| !matches!(body, Body::Unknown(_)))
        .collect()
}

impl Descriptor {
    fn of(body: &Body) -> Result<Descriptor, u8> {
        match body {
            Body::Avail { provider_avail_id } => Ok(Descriptor::Avail {
                provider_avail_id: *provider_avail_id,
            }),
            Body::Dtmf {
                preroll,
                dtmf_chars,
                ..
            } => Ok(Descriptor::Dtmf {
                preroll: *preroll,
                dtmf_count: count(dtmf_chars),
            }),
            Body::Segmentation(segmentation) => Ok(Descriptor::of_segmentation(segmentation)),
            Body::Time {
                tai_seconds,
                tai_ns,
                utc_offset,
            } => Ok(Descriptor::Time {
                tai_seconds: *tai_seconds,
                tai_ns: *tai_ns,
                utc_offset: *utc_offset,
            }),
            Body::Audio { components, .. } => Ok(Descriptor::Audio {
                audio_count: count(components),
            }),
            Body::Unknown(_) => Err(NOTHERE),
        }
    }

    fn of_segmentation(read: &section::Segmentation) -> Descriptor {
        let segmentation_event_id = read.segmentation_event_id;
        match &read.segment {
            None => Descriptor::CancelledSegmentation {
                segmentation_event_id,
            },
            Some(segment) => {
                Descriptor::Segmentation(Segmentation::of(segmentation_event_id, segment))
            }
        }
    }
}

impl AudioComponent {
    fn of(read: &section::AudioComponent) -> AudioComponent {
        AudioComponent {
            component_tag: read.component_tag,
            iso_code: read.iso_code,
            bit_stream_mode: read.bit_stream_mode,
            num_channels: read.num_channels,
            full_srvc_audio: read.full_srvc_audio,
        }
    }
}

impl Reading for Descriptor {
    fn list(&self, to: &mut Entries) {
        match self {
            Descriptor::Avail { provider_avail_id } => {
                to.case("descriptor", "avail", 0);
                to.value("provider_avail_id", *provider_avail_id);
            }
            Descriptor::Dtmf {
                preroll,
                dtmf_count,
            } => {
                to.case("descriptor", "DTMF", 1);
                to.value("preroll", *preroll);
                to.value("dtmf_count", *dtmf_count);
            }
            Descriptor::Segmentation(segmentation) => {
                to.case("descriptor", "segmentation", 2);
                segmentation.list(to);
            }
            Descriptor::CancelledSegmentation {
                segmentation_event_id,
            } => {
                to.case("descriptor", "cancelled segmentation", 3);
                to.value("segmentation_event_id", *segmentation_event_id);
            }
            Descriptor::Time {
                tai_seconds,
                tai_ns,
                utc_offset,
            } => {
                to.case("descriptor", "time", 4);
                to.value("TAI_seconds", *tai_seconds);
                to.value("TAI_ns", *tai_ns);
                to.value("UTC_offset", *utc_offset);
            }
            Descriptor::Audio { audio_count } => {
                to.case("descriptor", "audio", 5);
                to.value("audio_count", *audio_count);
            }
        }
    }
}

impl Reading for AudioComponent {
    fn list(&self, to: &mut Entries) {
        to.value("component_tag", self.component_tag);
        to.value("ISO_code", self.iso_code);
        to.value("Bit_Stream_Mode", self.bit_stream_mode);
        to.value("Num_Channels", self.num_channels);
        to.value("Full_Srvc_Audio", self.full_srvc_audio);
    }
}
