//! The house answers: the break, the DASH duration, the effective time, the bill label and the first
//! DVB check, for any bytes. Each is asked of a section that was taken apart (`section::Apart`), or of
//! its bytes (`of_bytes`). README.md sets out the numbers of every answer, case by case.

mod break_answer;
mod dash_duration;
mod dvb;
mod effective_time;
mod label;
mod of_bytes;
mod segments;

pub use break_answer::Break;
pub use dash_duration::DashDuration;
pub use dvb::Dvb;
pub use effective_time::EffectiveTime;
pub use label::Label;
pub use of_bytes::{bill_label, break_answer, dash_duration, dvb, effective_time};

#[cfg(test)]
mod tests;
