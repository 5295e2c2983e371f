//! The descriptor loop, tables 16 to 19, 27 and 28: each descriptor within its own length.

use super::cursor::Cursor;
use super::items::Items;
use super::segmentation::Segmentation;

/// The identifier of the descriptors that 002 defines, "CUEI".
pub const CUEI: u32 = 0x4355_4549;

#[derive(Clone, Debug, PartialEq, Eq)]
pub struct Descriptor {
    pub splice_descriptor_tag: u8,
    pub descriptor_length: u8,
    pub identifier: u32,
    pub body: Body,
}

#[derive(Clone, Debug, PartialEq, Eq)]
pub enum Body {
    Avail {
        provider_avail_id: u32,
    },
    Dtmf {
        preroll: u8,
        reserved: u8,
        dtmf_chars: Vec<u8>,
    },
    Segmentation(Segmentation),
    Time {
        tai_seconds: u64,
        tai_ns: u32,
        utc_offset: u16,
    },
    Audio {
        reserved: u8,
        components: Vec<AudioComponent>,
    },
    /// Another identifier or another tag, and any bytes.
    Unknown(Vec<u8>),
}

#[derive(Clone, Debug, PartialEq, Eq)]
pub struct AudioComponent {
    pub component_tag: u8,
    pub iso_code: u32,
    pub bit_stream_mode: u8,
    pub num_channels: u8,
    pub full_srvc_audio: bool,
}

impl Descriptor {
    /// The descriptors that fill these bytes exactly.
    pub fn read_all(mut bytes: &[u8]) -> Option<Vec<Descriptor>> {
        let mut descriptors = Vec::new();
        while let [tag, length, behind @ ..] = bytes {
            let (own, others) = behind.split_at_checked(usize::from(*length))?;
            descriptors.push(Descriptor::read(*tag, *length, own)?);
            bytes = others;
        }
        bytes.is_empty().then_some(descriptors)
    }

    /// A descriptor from the bytes that its length gives it, all of them used.
    fn read(tag: u8, length: u8, own: &[u8]) -> Option<Descriptor> {
        let mut from = Cursor::new(own);
        let identifier = from.take(32)?;
        let body = match (identifier, tag) {
            (CUEI, 0) => Body::Avail {
                provider_avail_id: from.take(32)?,
            },
            (CUEI, 1) => Body::read_dtmf(&mut from)?,
            (CUEI, 2) => Body::Segmentation(Segmentation::read(&mut from)?),
            (CUEI, 3) => Body::Time {
                tai_seconds: from.take(48)?,
                tai_ns: from.take(32)?,
                utc_offset: from.take(16)?,
            },
            (CUEI, 4) => Body::read_audio(&mut from)?,
            _ => Body::Unknown(from.rest()?),
        };
        (from.left() == 0).then_some(Descriptor {
            splice_descriptor_tag: tag,
            descriptor_length: length,
            identifier,
            body,
        })
    }

    pub fn list(&self, to: &mut Items) {
        to.group(self.body.name(), |to| {
            to.number("splice_descriptor_tag", 8, self.splice_descriptor_tag);
            to.number("descriptor_length", 8, self.descriptor_length);
            to.number("identifier", 32, self.identifier);
            self.body.list(to);
        });
    }
}

impl Body {
    fn read_dtmf(from: &mut Cursor) -> Option<Body> {
        let preroll = from.take(8)?;
        let dtmf_count = from.take(3)?;
        Some(Body::Dtmf {
            preroll,
            reserved: from.take(5)?,
            dtmf_chars: from.bytes(dtmf_count)?,
        })
    }

    fn read_audio(from: &mut Cursor) -> Option<Body> {
        let audio_count = from.take(4)?;
        Some(Body::Audio {
            reserved: from.take(4)?,
            components: from.list(audio_count, AudioComponent::read)?,
        })
    }

    fn name(&self) -> &'static str {
        match self {
            Body::Avail { .. } => "avail_descriptor()",
            Body::Dtmf { .. } => "DTMF_descriptor()",
            Body::Segmentation(_) => "segmentation_descriptor()",
            Body::Time { .. } => "time_descriptor()",
            Body::Audio { .. } => "audio_descriptor()",
            Body::Unknown(_) => "splice_descriptor()",
        }
    }

    fn list(&self, to: &mut Items) {
        match self {
            Body::Avail { provider_avail_id } => {
                to.number("provider_avail_id", 32, *provider_avail_id);
            }
            Body::Dtmf {
                preroll,
                reserved,
                dtmf_chars,
            } => {
                to.number("preroll", 8, *preroll);
                to.count("dtmf_count", 3, dtmf_chars);
                to.number("reserved", 5, *reserved);
                to.bytes("DTMF_char", dtmf_chars);
            }
            Body::Segmentation(segmentation) => segmentation.list(to),
            Body::Time {
                tai_seconds,
                tai_ns,
                utc_offset,
            } => {
                to.number("TAI_seconds", 48, *tai_seconds);
                to.number("TAI_ns", 32, *tai_ns);
                to.number("UTC_offset", 16, *utc_offset);
            }
            Body::Audio {
                reserved,
                components,
            } => {
                to.count("audio_count", 4, components);
                to.number("reserved", 4, *reserved);
                for component in components {
                    component.list(to);
                }
            }
            Body::Unknown(bytes) => to.bytes("private_byte", bytes),
        }
    }
}

impl AudioComponent {
    fn read(from: &mut Cursor) -> Option<AudioComponent> {
        Some(AudioComponent {
            component_tag: from.take(8)?,
            iso_code: from.take(24)?,
            bit_stream_mode: from.take(3)?,
            num_channels: from.take(4)?,
            full_srvc_audio: from.flag()?,
        })
    }

    fn list(&self, to: &mut Items) {
        to.group("component", |to| {
            to.number("component_tag", 8, self.component_tag);
            to.number("ISO_code", 24, self.iso_code);
            to.number("Bit_Stream_Mode", 3, self.bit_stream_mode);
            to.number("Num_Channels", 4, self.num_channels);
            to.number("Full_Srvc_Audio", 1, self.full_srvc_audio);
        });
    }
}
