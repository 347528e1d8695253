//! Module list, in place of the text's `core/math/mod.rs`.
mod base_math;
#[rustfmt::skip]
#[path = "../../../text/core/math/vector2.rs"]
mod vector2;

pub use base_math::*;
pub use vector2::{Vector2, vec2};
