//! The numbers that the published text is run over: plain f64 at the default line limit, `Limited` at any other.

use crate::{AABB, PlineVertex, PlineViewData, SplitResult, Vector2, ViewDataValidation};
use cavalier_contours::core::traits::Real;

/// A number of the text that holds an f64.
pub(crate) trait Number: Real {
    fn of(x: f64) -> Self;
    fn plain(self) -> f64;

    /// A verdict in plain f64. Taking one apart and putting it together again would show in what `bench` times.
    fn plain_verdict(verdict: ViewDataValidation<Self>) -> ViewDataValidation<f64>;
}

impl Number for f64 {
    #[inline]
    fn of(x: f64) -> Self {
        x
    }

    #[inline]
    fn plain(self) -> f64 {
        self
    }

    #[inline]
    fn plain_verdict(verdict: ViewDataValidation<Self>) -> ViewDataValidation<f64> {
        verdict
    }
}

/// Makes a call over f64 at the default limit, and over `Limited` at any other. The call names its numbers' type.
macro_rules! at_limit {
    ($limit:expr, |$number:ident| $call:expr) => {
        if $limit == $crate::LINE_LIMIT {
            type $number = f64;
            $call
        } else {
            let call = move || {
                type $number = $crate::limited::Limited;
                $call
            };
            $crate::limited::run_at($limit, call).0
        }
    };
}
pub(crate) use at_limit;

// The same value in numbers of another type.

#[inline]
pub(crate) fn same_point<A: Number, B: Number>(p: Vector2<A>) -> Vector2<B> {
    Vector2::new(B::of(p.x.plain()), B::of(p.y.plain()))
}

#[inline]
pub(crate) fn same_vertex<A: Number, B: Number>(v: PlineVertex<A>) -> PlineVertex<B> {
    PlineVertex::from_vector2(same_point(v.pos()), B::of(v.bulge.plain()))
}

#[inline]
pub(crate) fn same_record<A: Number, B: Number>(record: PlineViewData<A>) -> PlineViewData<B> {
    PlineViewData {
        start_index: record.start_index,
        end_index_offset: record.end_index_offset,
        updated_start: same_vertex(record.updated_start),
        updated_end_bulge: B::of(record.updated_end_bulge.plain()),
        end_point: same_point(record.end_point),
        inverted_direction: record.inverted_direction,
    }
}

#[inline]
pub(crate) fn same_split<A: Number, B: Number>(split: SplitResult<A>) -> SplitResult<B> {
    SplitResult {
        updated_start: same_vertex(split.updated_start),
        split_vertex: same_vertex(split.split_vertex),
    }
}

#[inline]
pub(crate) fn same_box<A: Number, B: Number>(aabb: AABB<A>) -> AABB<B> {
    let [min_x, min_y, max_x, max_y] =
        [aabb.min_x, aabb.min_y, aabb.max_x, aabb.max_y].map(|edge| B::of(edge.plain()));
    AABB::new(min_x, min_y, max_x, max_y)
}
