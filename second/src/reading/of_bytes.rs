//! The typed questions put to bytes: each is the method of `Apart` that has its name. Where many are
//! put to one section, it is better taken apart once.

use super::{
    AudioComponent, Command, Descriptor, Event, EventComponent, InsertComponent,
    SegmentationComponent, Upid,
};
use crate::section::Apart;

pub fn command(section: &[u8]) -> Result<Command, u8> {
    Apart::of(section).command()
}

pub fn insert_component(section: &[u8], n: u64) -> Result<InsertComponent, u8> {
    Apart::of(section).insert_component(n)
}

pub fn event(section: &[u8], n: u64) -> Result<Event, u8> {
    Apart::of(section).event(n)
}

pub fn event_component(section: &[u8], n: u64, m: u64) -> Result<EventComponent, u8> {
    Apart::of(section).event_component(n, m)
}

pub fn private_byte(section: &[u8], n: u64) -> Result<u8, u8> {
    Apart::of(section).private_byte(n)
}

pub fn descriptor_count(section: &[u8]) -> Result<u64, u8> {
    Apart::of(section).descriptor_count()
}

pub fn descriptor(section: &[u8], n: u64) -> Result<Descriptor, u8> {
    Apart::of(section).descriptor(n)
}

pub fn dtmf_char(section: &[u8], n: u64, m: u64) -> Result<u8, u8> {
    Apart::of(section).dtmf_char(n, m)
}

pub fn segmentation_component(section: &[u8], n: u64, m: u64) -> Result<SegmentationComponent, u8> {
    Apart::of(section).segmentation_component(n, m)
}

pub fn audio_component(section: &[u8], n: u64, m: u64) -> Result<AudioComponent, u8> {
    Apart::of(section).audio_component(n, m)
}

pub fn upid(section: &[u8], n: u64) -> Result<Upid<'_>, u8> {
    Apart::of(section).upid(n)
}
