//! Document 01's ranges.

use crate::{PlineVertex, PlineViewData, Vector2, refusal};

/// The vertex limit of an outline.
pub const MOST_VERTICES: usize = 2000;

/// The published text's own line limit, which is the default: a bulge of a magnitude below it is zero.
pub const LINE_LIMIT: f64 = 1e-8;

/// `Ok` when a check holds, else its refusal.
pub fn check(holds: bool, refusal: u8) -> Result<(), u8> {
    if holds { Ok(()) } else { Err(refusal) }
}

// A comparison with NaN is false, so each of these also shuts out NaN, and infinities with it.

pub fn coordinate_in_range(x: f64) -> bool {
    x.abs() <= 1_000_000.0
}

pub fn bulge_in_range(b: f64) -> bool {
    b.abs() <= 1.0
}

pub fn point_in_range(p: Vector2) -> bool {
    coordinate_in_range(p.x) && coordinate_in_range(p.y)
}

pub fn vertex_in_range(v: PlineVertex) -> bool {
    point_in_range(v.pos()) && bulge_in_range(v.bulge)
}

pub fn record_in_range(record: &PlineViewData) -> bool {
    vertex_in_range(record.updated_start)
        && bulge_in_range(record.updated_end_bulge)
        && point_in_range(record.end_point)
}

/// Whole vertices in range.
pub fn outline_in_range(numbers: &[f64]) -> bool {
    numbers
        .chunks_exact(3)
        .all(|v| coordinate_in_range(v[0]) && coordinate_in_range(v[1]) && bulge_in_range(v[2]))
}

/// Refusal 2.
pub fn tolerance(tolerance: f64) -> Result<(), u8> {
    check((1e-8..=1.0).contains(&tolerance), refusal::TOLERANCE)
}

/// Refusal 2 too, after the tolerance's.
pub fn line_limit(limit: f64) -> Result<(), u8> {
    check((LINE_LIMIT..=1e-3).contains(&limit), refusal::TOLERANCE)
}
