// Absent from the published text; written from document 01's working rules.

/// An axis-aligned box: four numbers.
#[derive(Debug, Copy, Clone, PartialEq)]
pub struct AABB<T = f64> {
    pub min_x: T,
    pub min_y: T,
    pub max_x: T,
    pub max_y: T,
}

impl<T> AABB<T> {
    #[inline]
    pub fn new(min_x: T, min_y: T, max_x: T, max_y: T) -> Self {
        AABB {
            min_x,
            min_y,
            max_x,
            max_y,
        }
    }
}
