//! Demand 3's steps on a plain list of vertices.

use crate::PlineVertex;

/// Turns the positions round, gives each segment its old bulge negated, and ends in bulge plus zero.
pub fn reverse(list: &[PlineVertex]) -> Vec<PlineVertex> {
    let n = list.len();
    (0..n)
        .map(|k| {
            let bulge = if k + 1 < n {
                -list[n - 2 - k].bulge
            } else {
                0.0
            };
            list[n - 1 - k].with_bulge(bulge)
        })
        .collect()
}

/// Keeps vertices i to j and ends in plus zero. `None` exactly when 0 <= i < j < n does not hold.
pub fn trim(list: &[PlineVertex], i: usize, j: usize) -> Option<Vec<PlineVertex>> {
    if !(i < j && j < list.len()) {
        return None;
    }
    let mut kept = list[i..=j].to_vec();
    kept[j - i].bulge = 0.0;
    Some(kept)
}
