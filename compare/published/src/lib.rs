//! The published text of cavalier_contours 0.9.0, in part, so that it can be run.
//!
//! `text/` holds the nine published files, byte for byte. Four of them are compiled from there, unchanged:
//! `core/math/vector2.rs`, `polyline/pline_vertex.rs`, `polyline/pline_seg.rs` and `polyline/pline_view.rs`.
//! The other five only list modules, most of them cut. The files of `src/` stand in for those lists, and for
//! what the text uses but does not contain.
#![forbid(unsafe_code)]

// The text says `use static_aabb2d_index::AABB`; that crate is not here, so the name leads to `aabb.rs`.
extern crate self as static_aabb2d_index;

mod aabb;
pub mod core;
pub mod polyline;

pub use aabb::AABB;
