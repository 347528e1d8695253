//! Module list, in place of the text's `core/traits/mod.rs`.
mod real;

pub use real::Real;
