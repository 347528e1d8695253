//! For tests: the former box, the published text's other one, for which flag bit 1 of a sheet asked before it was retired.

use cavalier_contours::AABB;
use cavalier_contours::polyline::{PlineVertex, seg_fast_approx_bounding_box};

/// The box line that was printed with that bit set, without its line feed, of a sheet that is read and has two vertices or
/// more. Of two equal edges the earlier segment's counts.
pub fn former_box_line(sheet: &[u8]) -> String {
    let closed = sheet[2] & 1 != 0;
    let count = usize::from(u16::from_le_bytes([sheet[4], sheet[5]]));
    let numbers: Vec<f64> = sheet[16..16 + 24 * count]
        .chunks_exact(8)
        .map(|bytes| f64::from_le_bytes(bytes.try_into().expect("8 bytes")))
        .collect();
    let vertex = |k| {
        let [x, y, bulge] = [0, 1, 2].map(|place| numbers[3 * (k % count) + place]);
        PlineVertex::new(x, y, bulge)
    };

    let segments = if closed { count } else { count - 1 };
    let boxes = (0..segments).map(|k| seg_fast_approx_bounding_box(vertex(k), vertex(k + 1)));
    let least = |edge, later| if later < edge { later } else { edge };
    let greatest = |edge, later| if later > edge { later } else { edge };
    let union = |edges: AABB, later: AABB| AABB {
        min_x: least(edges.min_x, later.min_x),
        min_y: least(edges.min_y, later.min_y),
        max_x: greatest(edges.max_x, later.max_x),
        max_y: greatest(edges.max_y, later.max_y),
    };
    let edges = boxes.reduce(union).expect("there is a segment");
    let [left, low, right, high] =
        [edges.min_x, edges.min_y, edges.max_x, edges.max_y].map(f64::to_bits);
    format!("box {left:016x} {low:016x} {right:016x} {high:016x}")
}

#[test]
fn the_former_box_is_larger() {
    // A half circle from (0, 0) to (3, 4): (0, -1.5) to (5, 4), where the true box is (0, -0.5) to (4, 4).
    let sheet = crate::sheets::sheet_of(&[0.0, 0.0, 1.0, 3.0, 4.0, 0.0], 2, &[]);
    assert_eq!(
        former_box_line(&sheet),
        "box 0000000000000000 bff8000000000000 4014000000000000 4010000000000000"
    );
}
