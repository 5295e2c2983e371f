//! The house questions put to bytes: each is the method of `Apart` that has its name. Where many are
//! put to one section, it is better taken apart once.

use super::{Break, DashDuration, Dvb, EffectiveTime, Label};
use crate::section::Apart;

pub fn break_answer(section: &[u8]) -> Result<Break, u8> {
    Apart::of(section).break_answer()
}

pub fn dash_duration(section: &[u8]) -> Result<DashDuration, u8> {
    Apart::of(section).dash_duration()
}

pub fn effective_time(section: &[u8]) -> Result<EffectiveTime, u8> {
    Apart::of(section).effective_time()
}

pub fn dvb(section: &[u8]) -> Result<Dvb, u8> {
    Apart::of(section).dvb()
}

pub fn bill_label<'a>(section: &'a [u8], house_name: &'a [u8]) -> Label<'a> {
    Apart::of(section).bill_label(house_name)
}
