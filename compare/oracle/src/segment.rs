//! The vertex from three numbers and the seven segment calls. A segment is 6 numbers: its two vertices.
//!
//! A call that takes a line limit stands in a function `.._over` that is generic over its numbers' type; the function without
//! that ending picks the type by the limit.

use crate::checks::{
    check, coordinate_in_range, line_limit, point_in_range, tolerance, vertex_in_range,
};
use crate::number::{Number, at_limit, same_box, same_point, same_split, same_vertex};
use crate::{AABB, PlineVertex, SplitResult, Vector2, refusal};
use cavalier_contours::polyline;

/// A vertex from a slice: 3, then 1.
pub fn vertex(numbers: &[f64]) -> Result<PlineVertex, u8> {
    let v = PlineVertex::from_slice(numbers).ok_or(refusal::OUTLINE)?;
    check(vertex_in_range(v), refusal::NUMBER)?;
    Ok(v)
}

/// The two vertices of a segment: 3, then 1.
fn ends<T: Number>(seg: &[f64]) -> Result<(PlineVertex<T>, PlineVertex<T>), u8> {
    check(seg.len() == 6, refusal::OUTLINE)?;
    let (v1, v2) = (vertex(&seg[..3])?, vertex(&seg[3..])?);
    Ok((same_vertex(v1), same_vertex(v2)))
}

pub fn seg_arc_radius_and_center(seg: &[f64], limit: f64) -> Result<(f64, Vector2), u8> {
    at_limit!(limit, |T| seg_arc_radius_and_center_over::<T>(seg, limit))
}

#[inline]
pub(crate) fn seg_arc_radius_and_center_over<T: Number>(
    seg: &[f64],
    limit: f64,
) -> Result<(f64, Vector2), u8> {
    let (v1, v2) = ends::<T>(seg)?;
    line_limit(limit)?;
    check(
        !v1.bulge_is_zero() && !v1.pos().fuzzy_eq(v2.pos()),
        refusal::NO_ARC,
    )?;
    let (radius, center) = polyline::seg_arc_radius_and_center(v1, v2);
    Ok((radius.plain(), same_point(center)))
}

pub fn seg_split_at_point(
    seg: &[f64],
    point: Vector2,
    eps: f64,
    limit: f64,
) -> Result<SplitResult, u8> {
    at_limit!(limit, |T| seg_split_at_point_over::<T>(
        seg, point, eps, limit
    ))
}

#[inline]
pub(crate) fn seg_split_at_point_over<T: Number>(
    seg: &[f64],
    point: Vector2,
    eps: f64,
    limit: f64,
) -> Result<SplitResult, u8> {
    let (v1, v2) = ends(seg)?;
    check(point_in_range(point), refusal::NUMBER)?;
    tolerance(eps)?;
    line_limit(limit)?;
    let split = polyline::seg_split_at_point(v1, v2, same_point(point), T::of(eps));
    Ok(same_split(split))
}

pub fn seg_tangent_vector(seg: &[f64], point: Vector2, limit: f64) -> Result<Vector2, u8> {
    at_limit!(limit, |T| seg_tangent_vector_over::<T>(seg, point, limit))
}

#[inline]
pub(crate) fn seg_tangent_vector_over<T: Number>(
    seg: &[f64],
    point: Vector2,
    limit: f64,
) -> Result<Vector2, u8> {
    let (v1, v2) = ends::<T>(seg)?;
    check(point_in_range(point), refusal::NUMBER)?;
    line_limit(limit)?;
    let tangent = polyline::seg_tangent_vector(v1, v2, same_point(point));
    Ok(same_point(tangent))
}

pub fn seg_closest_point(seg: &[f64], point: Vector2, eps: f64, limit: f64) -> Result<Vector2, u8> {
    at_limit!(limit, |T| seg_closest_point_over::<T>(
        seg, point, eps, limit
    ))
}

#[inline]
pub(crate) fn seg_closest_point_over<T: Number>(
    seg: &[f64],
    point: Vector2,
    eps: f64,
    limit: f64,
) -> Result<Vector2, u8> {
    let (v1, v2) = ends(seg)?;
    check(point_in_range(point), refusal::NUMBER)?;
    tolerance(eps)?;
    line_limit(limit)?;
    let closest = polyline::seg_closest_point(v1, v2, same_point(point), T::of(eps));
    Ok(same_point(closest))
}

pub fn seg_distance_is_greater_than(
    seg: &[f64],
    point: Vector2,
    distance: f64,
    eps: f64,
    limit: f64,
) -> Result<bool, u8> {
    at_limit!(limit, |T| seg_distance_is_greater_than_over::<T>(
        seg, point, distance, eps, limit
    ))
}

#[inline]
pub(crate) fn seg_distance_is_greater_than_over<T: Number>(
    seg: &[f64],
    point: Vector2,
    distance: f64,
    eps: f64,
    limit: f64,
) -> Result<bool, u8> {
    let (v1, v2) = ends(seg)?;
    check(
        point_in_range(point) && coordinate_in_range(distance),
        refusal::NUMBER,
    )?;
    tolerance(eps)?;
    line_limit(limit)?;
    let (point, distance, eps) = (same_point(point), T::of(distance), T::of(eps));
    Ok(polyline::seg_distance_is_greater_than(
        v1, v2, point, distance, eps,
    ))
}

pub fn seg_bounding_box(seg: &[f64], limit: f64) -> Result<AABB, u8> {
    at_limit!(limit, |T| seg_bounding_box_over::<T>(seg, limit))
}

#[inline]
pub(crate) fn seg_bounding_box_over<T: Number>(seg: &[f64], limit: f64) -> Result<AABB, u8> {
    let (v1, v2) = ends::<T>(seg)?;
    line_limit(limit)?;
    Ok(same_box(polyline::seg_bounding_box(v1, v2)))
}

pub fn seg_midpoint(seg: &[f64], limit: f64) -> Result<Vector2, u8> {
    at_limit!(limit, |T| seg_midpoint_over::<T>(seg, limit))
}

#[inline]
pub(crate) fn seg_midpoint_over<T: Number>(seg: &[f64], limit: f64) -> Result<Vector2, u8> {
    let (v1, v2) = ends::<T>(seg)?;
    line_limit(limit)?;
    Ok(same_point(polyline::seg_midpoint(v1, v2)))
}
