//! The crate as a caller sees it.
mod common;
mod programs;
mod refusals;
mod settings;
