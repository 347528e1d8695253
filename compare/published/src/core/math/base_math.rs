// Absent from the published text; written from document 01's working rules.

use super::Vector2;
use crate::core::traits::Real;

/// The two numbers in order when the first is strictly less, else exchanged.
#[inline]
pub fn min_max<T: Real>(first: T, second: T) -> (T, T) {
    if first < second {
        (first, second)
    } else {
        (second, first)
    }
}

/// The sum over two, for each coordinate.
#[inline]
pub fn midpoint<T: Real>(p0: Vector2<T>, p1: Vector2<T>) -> Vector2<T> {
    Vector2::new((p0.x + p1.x) / T::two(), (p0.y + p1.y) / T::two())
}

/// The squared distance between two points.
#[inline]
pub fn dist_squared<T: Real>(p0: Vector2<T>, p1: Vector2<T>) -> T {
    (p0 - p1).length_squared()
}

/// The sweep of an arc; the text says that a bulge is `tan(sweep / 4)`. Only lengths use it.
#[inline]
pub fn angle_from_bulge<T: Real>(bulge: T) -> T {
    T::four() * bulge.atan()
}

/// The closest point on a line: the two end tests of `seg_distance_is_greater_than`, and between them the
/// start plus the chord scaled by projection over squared chord length.
#[inline]
pub fn line_seg_closest_point<T: Real>(
    start: Vector2<T>,
    end: Vector2<T>,
    point: Vector2<T>,
) -> Vector2<T> {
    let chord = end - start;
    let projection = (point - start).dot(chord);
    if projection < T::fuzzy_epsilon() {
        return start;
    }

    let chord_length_squared = chord.length_squared();
    if chord_length_squared < projection + T::fuzzy_epsilon() {
        return end;
    }

    start + chord.scale(projection / chord_length_squared)
}

/// Whether a point is in an arc's sweep. Counter-clockwise: the perpendicular dot of (start - centre) with
/// (point - centre) is above minus the tolerance and that of (end - centre) with it is below the tolerance;
/// clockwise, the first is below the tolerance and the second above minus it.
#[inline]
pub fn point_within_arc_sweep<T: Real>(
    center: Vector2<T>,
    start: Vector2<T>,
    end: Vector2<T>,
    is_clockwise: bool,
    point: Vector2<T>,
    epsilon: T,
) -> bool {
    let radial = point - center;
    let from_start = (start - center).perp_dot(radial);
    let from_end = (end - center).perp_dot(radial);
    if is_clockwise {
        from_start < epsilon && from_end > -epsilon
    } else {
        from_start > -epsilon && from_end < epsilon
    }
}
