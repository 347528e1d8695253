//! The library that is judged, through its C face: the declarations, and a safe wrapper.
//!
//! [`Bisquefern`] has the calls of [`Library`]: slices go in, the answer is written in front of the lent buffer, and
//! 0 or document 01's refusal number comes back.

use oracle::Library;

/// What each function returns: 0 or a refusal number.
type Refusal = u8;

// The functions of the C face, as the header declares them. A slice is a pointer and then a length.
unsafe extern "C" {
    fn bf_sqrt(x: f64, out: *mut f64, out_len: usize) -> Refusal;
    fn bf_vertex(numbers: *const f64, numbers_len: usize, out: *mut f64, out_len: usize)
    -> Refusal;
    fn bf_seg_arc_radius_and_center(
        seg: *const f64,
        seg_len: usize,
        line_limit: f64,
        out: *mut f64,
        out_len: usize,
    ) -> Refusal;
    fn bf_seg_split_at_point(
        seg: *const f64,
        seg_len: usize,
        x: f64,
        y: f64,
        tolerance: f64,
        line_limit: f64,
        out: *mut f64,
        out_len: usize,
    ) -> Refusal;
    fn bf_seg_tangent_vector(
        seg: *const f64,
        seg_len: usize,
        x: f64,
        y: f64,
        line_limit: f64,
        out: *mut f64,
        out_len: usize,
    ) -> Refusal;
    fn bf_seg_closest_point(
        seg: *const f64,
        seg_len: usize,
        x: f64,
        y: f64,
        tolerance: f64,
        line_limit: f64,
        out: *mut f64,
        out_len: usize,
    ) -> Refusal;
    fn bf_seg_distance_is_greater_than(
        seg: *const f64,
        seg_len: usize,
        x: f64,
        y: f64,
        distance: f64,
        tolerance: f64,
        line_limit: f64,
        out: *mut u8,
        out_len: usize,
    ) -> Refusal;
    fn bf_seg_bounding_box(
        seg: *const f64,
        seg_len: usize,
        line_limit: f64,
        out: *mut f64,
        out_len: usize,
    ) -> Refusal;
    fn bf_seg_midpoint(
        seg: *const f64,
        seg_len: usize,
        line_limit: f64,
        out: *mut f64,
        out_len: usize,
    ) -> Refusal;
    fn bf_view_create(
        outline: *const f64,
        outline_len: usize,
        start: u64,
        x: f64,
        y: f64,
        intersect: u64,
        vertex: *const f64,
        vertex_len: usize,
        traverse: u64,
        tolerance: f64,
        line_limit: f64,
        out: *mut u8,
        out_len: usize,
    ) -> Refusal;
    fn bf_view_from_new_start(
        outline: *const f64,
        outline_len: usize,
        closed: u8,
        x: f64,
        y: f64,
        start: u64,
        tolerance: f64,
        line_limit: f64,
        out: *mut u8,
        out_len: usize,
    ) -> Refusal;
    fn bf_view_validate(
        outline: *const f64,
        outline_len: usize,
        record: *const u8,
        record_len: usize,
        line_limit: f64,
        whole: *mut u64,
        whole_len: usize,
        out: *mut f64,
        out_len: usize,
    ) -> Refusal;
    fn bf_view_mark(
        outline: *const f64,
        outline_len: usize,
        closed: u8,
        record: *const u8,
        record_len: usize,
        line_limit: f64,
        out: *mut u8,
        out_len: usize,
    ) -> Refusal;
    fn bf_view_count(
        outline: *const f64,
        outline_len: usize,
        record: *const u8,
        record_len: usize,
        out: *mut u64,
        out_len: usize,
    ) -> Refusal;
    fn bf_view_get(
        outline: *const f64,
        outline_len: usize,
        record: *const u8,
        record_len: usize,
        position: u64,
        out: *mut f64,
        out_len: usize,
    ) -> Refusal;
    fn bf_view_list(
        outline: *const f64,
        outline_len: usize,
        record: *const u8,
        record_len: usize,
        out: *mut f64,
        out_len: usize,
        count: *mut u64,
        count_len: usize,
    ) -> Refusal;
    fn bf_view_reverse(
        outline: *const f64,
        outline_len: usize,
        record: *const u8,
        record_len: usize,
        out: *mut u8,
        out_len: usize,
    ) -> Refusal;
    fn bf_view_trim(
        outline: *const f64,
        outline_len: usize,
        record: *const u8,
        record_len: usize,
        i: u64,
        j: u64,
        out: *mut u8,
        out_len: usize,
    ) -> Refusal;
}

/// The library that is judged.
#[derive(Debug, Clone, Copy)]
pub struct Bisquefern;

// SAFETY of every call below: each pointer goes with the length of the live slice that it comes from, and an answer
// buffer is lent to nothing else. The functions ask nothing of the contents, stay within the lengths and keep no
// pointer; that is proved of the library.
impl Library for Bisquefern {
    #[inline]
    fn sqrt(&self, x: f64, out: &mut [f64]) -> u8 {
        unsafe { bf_sqrt(x, out.as_mut_ptr(), out.len()) }
    }

    #[inline]
    fn vertex(&self, numbers: &[f64], out: &mut [f64]) -> u8 {
        unsafe { bf_vertex(numbers.as_ptr(), numbers.len(), out.as_mut_ptr(), out.len()) }
    }

    #[inline]
    fn seg_arc_radius_and_center(&self, seg: &[f64], line_limit: f64, out: &mut [f64]) -> u8 {
        unsafe {
            bf_seg_arc_radius_and_center(
                seg.as_ptr(),
                seg.len(),
                line_limit,
                out.as_mut_ptr(),
                out.len(),
            )
        }
    }

    #[inline]
    fn seg_split_at_point(
        &self,
        seg: &[f64],
        x: f64,
        y: f64,
        tolerance: f64,
        line_limit: f64,
        out: &mut [f64],
    ) -> u8 {
        unsafe {
            bf_seg_split_at_point(
                seg.as_ptr(),
                seg.len(),
                x,
                y,
                tolerance,
                line_limit,
                out.as_mut_ptr(),
                out.len(),
            )
        }
    }

    #[inline]
    fn seg_tangent_vector(
        &self,
        seg: &[f64],
        x: f64,
        y: f64,
        line_limit: f64,
        out: &mut [f64],
    ) -> u8 {
        unsafe {
            bf_seg_tangent_vector(
                seg.as_ptr(),
                seg.len(),
                x,
                y,
                line_limit,
                out.as_mut_ptr(),
                out.len(),
            )
        }
    }

    #[inline]
    fn seg_closest_point(
        &self,
        seg: &[f64],
        x: f64,
        y: f64,
        tolerance: f64,
        line_limit: f64,
        out: &mut [f64],
    ) -> u8 {
        unsafe {
            bf_seg_closest_point(
                seg.as_ptr(),
                seg.len(),
                x,
                y,
                tolerance,
                line_limit,
                out.as_mut_ptr(),
                out.len(),
            )
        }
    }

    #[inline]
    fn seg_distance_is_greater_than(
        &self,
        seg: &[f64],
        x: f64,
        y: f64,
        distance: f64,
        tolerance: f64,
        line_limit: f64,
        out: &mut [u8],
    ) -> u8 {
        unsafe {
            bf_seg_distance_is_greater_than(
                seg.as_ptr(),
                seg.len(),
                x,
                y,
                distance,
                tolerance,
                line_limit,
                out.as_mut_ptr(),
                out.len(),
            )
        }
    }

    #[inline]
    fn seg_bounding_box(&self, seg: &[f64], line_limit: f64, out: &mut [f64]) -> u8 {
        unsafe {
            bf_seg_bounding_box(
                seg.as_ptr(),
                seg.len(),
                line_limit,
                out.as_mut_ptr(),
                out.len(),
            )
        }
    }

    #[inline]
    fn seg_midpoint(&self, seg: &[f64], line_limit: f64, out: &mut [f64]) -> u8 {
        unsafe {
            bf_seg_midpoint(
                seg.as_ptr(),
                seg.len(),
                line_limit,
                out.as_mut_ptr(),
                out.len(),
            )
        }
    }

    #[inline]
    fn view_create(
        &self,
        outline: &[f64],
        start: u64,
        x: f64,
        y: f64,
        intersect: u64,
        vertex: &[f64],
        traverse: u64,
        tolerance: f64,
        line_limit: f64,
        out: &mut [u8],
    ) -> u8 {
        unsafe {
            bf_view_create(
                outline.as_ptr(),
                outline.len(),
                start,
                x,
                y,
                intersect,
                vertex.as_ptr(),
                vertex.len(),
                traverse,
                tolerance,
                line_limit,
                out.as_mut_ptr(),
                out.len(),
            )
        }
    }

    #[inline]
    fn view_from_new_start(
        &self,
        outline: &[f64],
        closed: u8,
        x: f64,
        y: f64,
        start: u64,
        tolerance: f64,
        line_limit: f64,
        out: &mut [u8],
    ) -> u8 {
        unsafe {
            bf_view_from_new_start(
                outline.as_ptr(),
                outline.len(),
                closed,
                x,
                y,
                start,
                tolerance,
                line_limit,
                out.as_mut_ptr(),
                out.len(),
            )
        }
    }

    #[inline]
    fn view_validate(
        &self,
        outline: &[f64],
        record: &[u8],
        line_limit: f64,
        whole: &mut [u64],
        out: &mut [f64],
    ) -> u8 {
        unsafe {
            bf_view_validate(
                outline.as_ptr(),
                outline.len(),
                record.as_ptr(),
                record.len(),
                line_limit,
                whole.as_mut_ptr(),
                whole.len(),
                out.as_mut_ptr(),
                out.len(),
            )
        }
    }

    #[inline]
    fn view_mark(
        &self,
        outline: &[f64],
        closed: u8,
        record: &[u8],
        line_limit: f64,
        out: &mut [u8],
    ) -> u8 {
        unsafe {
            bf_view_mark(
                outline.as_ptr(),
                outline.len(),
                closed,
                record.as_ptr(),
                record.len(),
                line_limit,
                out.as_mut_ptr(),
                out.len(),
            )
        }
    }

    #[inline]
    fn view_count(&self, outline: &[f64], record: &[u8], out: &mut [u64]) -> u8 {
        unsafe {
            bf_view_count(
                outline.as_ptr(),
                outline.len(),
                record.as_ptr(),
                record.len(),
                out.as_mut_ptr(),
                out.len(),
            )
        }
    }

    #[inline]
    fn view_get(&self, outline: &[f64], record: &[u8], position: u64, out: &mut [f64]) -> u8 {
        unsafe {
            bf_view_get(
                outline.as_ptr(),
                outline.len(),
                record.as_ptr(),
                record.len(),
                position,
                out.as_mut_ptr(),
                out.len(),
            )
        }
    }

    #[inline]
    fn view_list(&self, outline: &[f64], record: &[u8], out: &mut [f64], count: &mut [u64]) -> u8 {
        unsafe {
            bf_view_list(
                outline.as_ptr(),
                outline.len(),
                record.as_ptr(),
                record.len(),
                out.as_mut_ptr(),
                out.len(),
                count.as_mut_ptr(),
                count.len(),
            )
        }
    }

    #[inline]
    fn view_reverse(&self, outline: &[f64], record: &[u8], out: &mut [u8]) -> u8 {
        unsafe {
            bf_view_reverse(
                outline.as_ptr(),
                outline.len(),
                record.as_ptr(),
                record.len(),
                out.as_mut_ptr(),
                out.len(),
            )
        }
    }

    #[inline]
    fn view_trim(&self, outline: &[f64], record: &[u8], i: u64, j: u64, out: &mut [u8]) -> u8 {
        unsafe {
            bf_view_trim(
                outline.as_ptr(),
                outline.len(),
                record.as_ptr(),
                record.len(),
                i,
                j,
                out.as_mut_ptr(),
                out.len(),
            )
        }
    }
}
