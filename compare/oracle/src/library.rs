//! The library's face: the functions on numbers and slices that are compared, and the oracle's answers to them.

use crate::checks::check;
use crate::number::at_limit;
use crate::record::{cut_number, decode, encode};
use crate::{AABB, PlineViewData, Vector2, ViewDataValidation, refusal, segment, view};

/// The calls of the C face, with slices in place of pointers. Each answers 0 where it answers, else document
/// 01's refusal number, and then has written nothing. A record is the job sheet's 64 bytes; another length is
/// refused 11 and a bad direction 12, before anything else. A short answer buffer is refused 8, last. `line_limit` is the
/// magnitude of a bulge from which a segment is an arc.
#[allow(clippy::too_many_arguments)]
pub trait Library {
    fn sqrt(&self, x: f64, out: &mut [f64]) -> u8;
    fn vertex(&self, numbers: &[f64], out: &mut [f64]) -> u8;
    fn seg_arc_radius_and_center(&self, seg: &[f64], line_limit: f64, out: &mut [f64]) -> u8;
    fn seg_split_at_point(
        &self,
        seg: &[f64],
        x: f64,
        y: f64,
        tolerance: f64,
        line_limit: f64,
        out: &mut [f64],
    ) -> u8;
    fn seg_tangent_vector(
        &self,
        seg: &[f64],
        x: f64,
        y: f64,
        line_limit: f64,
        out: &mut [f64],
    ) -> u8;
    fn seg_closest_point(
        &self,
        seg: &[f64],
        x: f64,
        y: f64,
        tolerance: f64,
        line_limit: f64,
        out: &mut [f64],
    ) -> u8;
    fn seg_distance_is_greater_than(
        &self,
        seg: &[f64],
        x: f64,
        y: f64,
        distance: f64,
        tolerance: f64,
        line_limit: f64,
        out: &mut [u8],
    ) -> u8;
    fn seg_bounding_box(&self, seg: &[f64], line_limit: f64, out: &mut [f64]) -> u8;
    fn seg_midpoint(&self, seg: &[f64], line_limit: f64, out: &mut [f64]) -> u8;
    fn view_create(
        &self,
        outline: &[f64],
        start: u64,
        x: f64,
        y: f64,
        intersect: u64,
        vertex: &[f64],
        traverse: u64,
        tolerance: f64,
        line_limit: f64,
        out: &mut [u8],
    ) -> u8;
    fn view_from_new_start(
        &self,
        outline: &[f64],
        closed: u8,
        x: f64,
        y: f64,
        start: u64,
        tolerance: f64,
        line_limit: f64,
        out: &mut [u8],
    ) -> u8;
    /// Writes to `whole` the verdict, for verdict 2 the offset and the vertex count, and the square roots that the
    /// verdict took; to `out` the verdict's numbers in the order of `ViewDataValidation`. Unused places of the 4 and
    /// the 5 get zero.
    fn view_validate(
        &self,
        outline: &[f64],
        record: &[u8],
        line_limit: f64,
        whole: &mut [u64],
        out: &mut [f64],
    ) -> u8;
    fn view_mark(
        &self,
        outline: &[f64],
        closed: u8,
        record: &[u8],
        line_limit: f64,
        out: &mut [u8],
    ) -> u8;
    fn view_count(&self, outline: &[f64], record: &[u8], out: &mut [u64]) -> u8;
    fn view_get(&self, outline: &[f64], record: &[u8], position: u64, out: &mut [f64]) -> u8;
    fn view_list(&self, outline: &[f64], record: &[u8], out: &mut [f64], count: &mut [u64]) -> u8;
    fn view_reverse(&self, outline: &[f64], record: &[u8], out: &mut [u8]) -> u8;
    fn view_trim(&self, outline: &[f64], record: &[u8], i: u64, j: u64, out: &mut [u8]) -> u8;
}

/// The published text with document 01's checks.
#[derive(Debug, Clone, Copy)]
pub struct Oracle;

/// An answer, written in front of `out`.
fn give<T: Copy, const N: usize>(answer: [T; N], out: &mut [T]) -> Result<(), u8> {
    let place = out.first_chunk_mut().ok_or(refusal::ROOM)?;
    *place = answer;
    Ok(())
}

fn corners(aabb: AABB) -> [f64; 4] {
    [aabb.min_x, aabb.min_y, aabb.max_x, aabb.max_y]
}

/// A verdict's counts and numbers, unused ones zero.
fn verdict_values(verdict: &ViewDataValidation<f64>) -> ([u64; 3], [f64; 5]) {
    let number = u64::from(view::verdict_number(verdict));
    let none = [0.0; 5];
    match *verdict {
        ViewDataValidation::SourceHasNoSegments | ViewDataValidation::IsValid => {
            ([number, 0, 0], none)
        }
        ViewDataValidation::OffsetOutOfRange {
            offset,
            source_length,
        } => ([number, offset as u64, source_length as u64], none),
        ViewDataValidation::UpdatedStartNotOnSegment { start_point: p }
        | ViewDataValidation::EndPointNotOnSegment { end_point: p } => {
            ([number, 0, 0], [p.x, p.y, 0.0, 0.0, 0.0])
        }
        ViewDataValidation::EndPointOnFinalOffsetVertex {
            end_point: p,
            final_offset_vertex: v,
        } => ([number, 0, 0], [p.x, p.y, v.x, v.y, v.bulge]),
        ViewDataValidation::UpdatedBulgeDoesNotMatch {
            updated_bulge,
            expected,
        } => ([number, 0, 0], [updated_bulge, expected, 0.0, 0.0, 0.0]),
    }
}

/// A verdict and its roots: 8 where either buffer is short, and then neither is written.
fn give_verdict(
    verdict: &ViewDataValidation<f64>,
    roots: u64,
    whole: &mut [u64],
    out: &mut [f64],
) -> Result<(), u8> {
    check(whole.len() >= 4 && out.len() >= 5, refusal::ROOM)?;
    let ([number, offset, count], numbers) = verdict_values(verdict);
    give([number, offset, count, roots], whole)?;
    give(numbers, out)
}

/// A record with its cut number: `create` and `from_new_start` give 0, reversal and trim keep it.
fn give_record(answer: PlineViewData, cut_number: u32, out: &mut [u8]) -> Result<(), u8> {
    give(encode(&answer, cut_number), out)
}

/// 0, or the refusal.
fn reply(answer: Result<(), u8>) -> u8 {
    answer.err().unwrap_or(0)
}

impl Oracle {
    /// Validation by the text alone, run once, with no count. `bench` times this.
    #[inline(never)]
    pub fn verdict(
        &self,
        outline: &[f64],
        record: &[u8],
        line_limit: f64,
        whole: &mut [u64],
        out: &mut [f64],
    ) -> u8 {
        at_limit!(line_limit, |T| reply(decode(record).and_then(|record| {
            let verdict = view::validate_over::<T>(outline, &record, line_limit)?;
            give_verdict(&verdict, 0, whole, out)
        })))
    }
}

// Never inlined: a caller of the library that is compared cannot inline it either, and `bench` times both.
impl Library for Oracle {
    #[inline(never)]
    fn sqrt(&self, x: f64, out: &mut [f64]) -> u8 {
        reply(crate::sqrt(x).and_then(|root| give([root], out)))
    }

    #[inline(never)]
    fn vertex(&self, numbers: &[f64], out: &mut [f64]) -> u8 {
        reply(segment::vertex(numbers).and_then(|v| give([v.x, v.y, v.bulge], out)))
    }

    #[inline(never)]
    fn seg_arc_radius_and_center(&self, seg: &[f64], line_limit: f64, out: &mut [f64]) -> u8 {
        at_limit!(line_limit, |T| {
            let answer = segment::seg_arc_radius_and_center_over::<T>(seg, line_limit);
            reply(answer.and_then(|(radius, center)| give([radius, center.x, center.y], out)))
        })
    }

    #[inline(never)]
    fn seg_split_at_point(
        &self,
        seg: &[f64],
        x: f64,
        y: f64,
        tolerance: f64,
        line_limit: f64,
        out: &mut [f64],
    ) -> u8 {
        let p = Vector2::new(x, y);
        at_limit!(line_limit, |T| {
            let answer = segment::seg_split_at_point_over::<T>(seg, p, tolerance, line_limit);
            reply(answer.and_then(|split| {
                let (v1, v2) = (split.updated_start, split.split_vertex);
                give([v1.x, v1.y, v1.bulge, v2.x, v2.y, v2.bulge], out)
            }))
        })
    }

    #[inline(never)]
    fn seg_tangent_vector(
        &self,
        seg: &[f64],
        x: f64,
        y: f64,
        line_limit: f64,
        out: &mut [f64],
    ) -> u8 {
        let p = Vector2::new(x, y);
        at_limit!(line_limit, |T| {
            let answer = segment::seg_tangent_vector_over::<T>(seg, p, line_limit);
            reply(answer.and_then(|p| give([p.x, p.y], out)))
        })
    }

    #[inline(never)]
    fn seg_closest_point(
        &self,
        seg: &[f64],
        x: f64,
        y: f64,
        tolerance: f64,
        line_limit: f64,
        out: &mut [f64],
    ) -> u8 {
        let p = Vector2::new(x, y);
        at_limit!(line_limit, |T| {
            let answer = segment::seg_closest_point_over::<T>(seg, p, tolerance, line_limit);
            reply(answer.and_then(|p| give([p.x, p.y], out)))
        })
    }

    #[inline(never)]
    fn seg_distance_is_greater_than(
        &self,
        seg: &[f64],
        x: f64,
        y: f64,
        distance: f64,
        tolerance: f64,
        line_limit: f64,
        out: &mut [u8],
    ) -> u8 {
        let p = Vector2::new(x, y);
        at_limit!(line_limit, |T| {
            let answer = segment::seg_distance_is_greater_than_over::<T>(
                seg, p, distance, tolerance, line_limit,
            );
            reply(answer.and_then(|greater| give([u8::from(greater)], out)))
        })
    }

    #[inline(never)]
    fn seg_bounding_box(&self, seg: &[f64], line_limit: f64, out: &mut [f64]) -> u8 {
        at_limit!(line_limit, |T| {
            let answer = segment::seg_bounding_box_over::<T>(seg, line_limit);
            reply(answer.and_then(|aabb| give(corners(aabb), out)))
        })
    }

    #[inline(never)]
    fn seg_midpoint(&self, seg: &[f64], line_limit: f64, out: &mut [f64]) -> u8 {
        at_limit!(line_limit, |T| {
            let answer = segment::seg_midpoint_over::<T>(seg, line_limit);
            reply(answer.and_then(|p| give([p.x, p.y], out)))
        })
    }

    #[inline(never)]
    fn view_create(
        &self,
        outline: &[f64],
        start: u64,
        x: f64,
        y: f64,
        intersect: u64,
        vertex: &[f64],
        traverse: u64,
        tolerance: f64,
        line_limit: f64,
        out: &mut [u8],
    ) -> u8 {
        let end = Vector2::new(x, y);
        at_limit!(line_limit, |T| {
            let answer = view::create_over::<T>(
                outline, start, end, intersect, vertex, traverse, tolerance, line_limit,
            );
            reply(answer.and_then(|record| give_record(record, 0, out)))
        })
    }

    #[inline(never)]
    fn view_from_new_start(
        &self,
        outline: &[f64],
        closed: u8,
        x: f64,
        y: f64,
        start: u64,
        tolerance: f64,
        line_limit: f64,
        out: &mut [u8],
    ) -> u8 {
        let p = Vector2::new(x, y);
        at_limit!(line_limit, |T| {
            let answer = view::from_new_start_over::<T>(
                outline,
                closed != 0,
                p,
                start,
                tolerance,
                line_limit,
            );
            reply(answer.and_then(|record| give_record(record, 0, out)))
        })
    }

    #[inline(never)]
    fn view_validate(
        &self,
        outline: &[f64],
        record: &[u8],
        line_limit: f64,
        whole: &mut [u64],
        out: &mut [f64],
    ) -> u8 {
        reply(decode(record).and_then(|record| {
            let (verdict, roots) = view::validate_counted(outline, &record, line_limit)?;
            give_verdict(&verdict, roots, whole, out)
        }))
    }

    #[inline(never)]
    fn view_mark(
        &self,
        outline: &[f64],
        closed: u8,
        record: &[u8],
        line_limit: f64,
        out: &mut [u8],
    ) -> u8 {
        at_limit!(line_limit, |T| reply(decode(record).and_then(|record| {
            let cut = view::mark_over::<T>(outline, closed != 0, &record, line_limit)?;
            give([u8::from(cut)], out)
        })))
    }

    #[inline(never)]
    fn view_count(&self, outline: &[f64], record: &[u8], out: &mut [u64]) -> u8 {
        reply(decode(record).and_then(|record| {
            let count = view::count(outline, &record)?;
            give([count as u64], out)
        }))
    }

    #[inline(never)]
    fn view_get(&self, outline: &[f64], record: &[u8], position: u64, out: &mut [f64]) -> u8 {
        reply(decode(record).and_then(|record| {
            let v = view::get(outline, &record, position)?;
            give([v.x, v.y, v.bulge], out)
        }))
    }

    #[inline(never)]
    fn view_list(&self, outline: &[f64], record: &[u8], out: &mut [f64], count: &mut [u64]) -> u8 {
        reply(decode(record).and_then(|record| {
            // A missing place for the count is a short buffer: the list must then not be written either.
            let room: &mut [f64] = if count.is_empty() { &mut [] } else { out };
            let vertices = view::list_into(outline, &record, room)?;
            give([vertices as u64], count)
        }))
    }

    #[inline(never)]
    fn view_reverse(&self, outline: &[f64], record: &[u8], out: &mut [u8]) -> u8 {
        reply(decode(record).and_then(|data| {
            let turned = view::reverse(outline, &data)?;
            give_record(turned, cut_number(record), out)
        }))
    }

    #[inline(never)]
    fn view_trim(&self, outline: &[f64], record: &[u8], i: u64, j: u64, out: &mut [u8]) -> u8 {
        reply(decode(record).and_then(|data| {
            let trimmed = view::trim(outline, &data, i, j)?;
            give_record(trimmed, cut_number(record), out)
        }))
    }
}
