//! The comparison: the second program and the proved library answer the same questions.
//! This test and the long comparison, `long.rs`, alone link the proved library's archive.

mod cases;
mod proved;
mod support;
