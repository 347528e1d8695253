//! Module list, in place of the text's `polyline/mod.rs`.
#[rustfmt::skip]
#[path = "../../text/polyline/pline_seg.rs"]
mod pline_seg;
#[rustfmt::skip]
#[path = "../../text/polyline/pline_vertex.rs"]
mod pline_vertex;
#[rustfmt::skip]
#[path = "../../text/polyline/pline_view.rs"]
mod pline_view;
mod source;

pub use pline_seg::*;
pub use pline_vertex::*;
pub use pline_view::*;
pub use source::{PlineSource, Polyline};
