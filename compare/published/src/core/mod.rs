//! Module list, in place of the text's `core/mod.rs`.
pub mod math;
pub mod traits;
