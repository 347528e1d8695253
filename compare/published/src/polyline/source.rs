// Absent from the published text; written from document 01's working rules.

use super::PlineVertex;
use crate::core::traits::Real;

/// What the text reads an outline through. A wrapped vertex number is the remainder of index plus steps by
/// the vertex count.
pub trait PlineSource {
    type Num: Real;
    type OutputPolyline;

    fn get_userdata_count(&self) -> usize;
    fn get_userdata_values(&self) -> impl Iterator<Item = u64> + '_;
    fn vertex_count(&self) -> usize;
    fn is_closed(&self) -> bool;
    fn get(&self, index: usize) -> Option<PlineVertex<Self::Num>>;
    fn at(&self, index: usize) -> PlineVertex<Self::Num>;

    #[inline]
    fn last(&self) -> Option<PlineVertex<Self::Num>> {
        self.get(self.vertex_count().checked_sub(1)?)
    }

    #[inline]
    fn fwd_wrapping_index(&self, index: usize, steps: usize) -> usize {
        (index + steps) % self.vertex_count()
    }

    #[inline]
    fn next_wrapping_index(&self, index: usize) -> usize {
        self.fwd_wrapping_index(index, 1)
    }

    #[inline]
    fn prev_wrapping_index(&self, index: usize) -> usize {
        self.fwd_wrapping_index(index, self.vertex_count() - 1)
    }

    /// The steps from one vertex number forward to another.
    #[inline]
    fn fwd_wrapping_dist(&self, from: usize, to: usize) -> usize {
        (to + self.vertex_count() - from) % self.vertex_count()
    }
}

/// An outline with vertexes of its own.
#[derive(Debug, Clone, Default)]
pub struct Polyline<T = f64> {
    pub vertex_data: Vec<PlineVertex<T>>,
    pub is_closed: bool,
}

impl<T: Real> PlineSource for Polyline<T> {
    type Num = T;
    type OutputPolyline = Polyline<T>;

    #[inline]
    fn get_userdata_count(&self) -> usize {
        0
    }

    #[inline]
    fn get_userdata_values(&self) -> impl Iterator<Item = u64> + '_ {
        std::iter::empty()
    }

    #[inline]
    fn vertex_count(&self) -> usize {
        self.vertex_data.len()
    }

    #[inline]
    fn is_closed(&self) -> bool {
        self.is_closed
    }

    #[inline]
    fn get(&self, index: usize) -> Option<PlineVertex<T>> {
        self.vertex_data.get(index).copied()
    }

    #[inline]
    fn at(&self, index: usize) -> PlineVertex<T> {
        self.vertex_data[index]
    }
}
