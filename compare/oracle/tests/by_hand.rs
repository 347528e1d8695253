//! The cases that document 01 checked by hand, its sheet, sheets with the flag that is retired, cut numbers, and the line limit.

use oracle::{
    LINE_LIMIT, Library, Oracle, PlineVertex, PlineViewData, Vector2, ViewDataValidation, record,
    segment, sheet, sqrt, view,
};

const H: [f64; 6] = [0.0, 0.0, 1.0, 1.0, 0.0, 0.0];
const Q: [f64; 12] = [0.0, 0.0, 0.0, 4.0, 0.0, 0.5, 4.0, 4.0, 0.0, 0.0, 4.0, 0.0];

fn r() -> PlineViewData {
    PlineViewData {
        start_index: 0,
        end_index_offset: 2,
        updated_start: PlineVertex::new(1.0, 0.0, 0.0),
        updated_end_bulge: 0.0,
        end_point: Vector2::new(2.0, 4.0),
        inverted_direction: false,
    }
}

fn bits(list: &[PlineVertex]) -> Vec<[u64; 3]> {
    let of = |v: &PlineVertex| [v.x.to_bits(), v.y.to_bits(), v.bulge.to_bits()];
    list.iter().map(of).collect()
}

fn expected(list: &[(f64, f64, f64)]) -> Vec<[u64; 3]> {
    let of = |v: &(f64, f64, f64)| [v.0.to_bits(), v.1.to_bits(), v.2.to_bits()];
    list.iter().map(of).collect()
}

#[test]
fn p1_to_p3_half_circle() {
    let (radius, center) = segment::seg_arc_radius_and_center(&H, LINE_LIMIT).unwrap();
    assert_eq!((radius, center.x, center.y), (0.5, 0.5, 0.0));
    let aabb = segment::seg_bounding_box(&H, LINE_LIMIT).unwrap();
    let corners = (aabb.min_x, aabb.min_y, aabb.max_x, aabb.max_y);
    assert_eq!(corners, (0.0, -0.5, 1.0, 0.0));
    assert_eq!(
        segment::seg_midpoint(&H, LINE_LIMIT),
        Ok(Vector2::new(0.5, -0.5))
    );
}

#[test]
fn p4_and_p5_tangents() {
    let seg = [2.0, 2.0, 1.0, 4.0, 2.0, 0.0];
    let at = |x, y| segment::seg_tangent_vector(&seg, Vector2::new(x, y), LINE_LIMIT);
    assert_eq!(at(3.0, 1.0), Ok(Vector2::new(1.0, 0.0)));
    assert_eq!(at(2.0, 2.0), Ok(Vector2::new(0.0, -1.0)));
}

#[test]
fn p6_split_past_the_end() {
    let split = segment::seg_split_at_point(&H, Vector2::new(3.0, 0.0), 1e-5, LINE_LIMIT).unwrap();
    assert_eq!(split.updated_start, PlineVertex::new(0.0, 0.0, 0.0));
    assert_eq!(split.split_vertex, PlineVertex::new(3.0, 0.0, 1.0));
}

#[test]
fn p7_to_p9_lists() {
    let listed = bits(&view::list(&Q, &r()).unwrap());
    assert_eq!(
        listed,
        expected(&[
            (1.0, 0.0, 0.0),
            (4.0, 0.0, 0.5),
            (4.0, 4.0, 0.0),
            (2.0, 4.0, 0.0)
        ])
    );

    let reversed = view::reverse(&Q, &r()).unwrap();
    assert_eq!(
        bits(&view::list(&Q, &reversed).unwrap()),
        expected(&[
            (2.0, 4.0, -0.0),
            (4.0, 4.0, -0.5),
            (4.0, 0.0, -0.0),
            (1.0, 0.0, 0.0)
        ])
    );

    let trimmed = view::trim(&Q, &reversed, 1, 2).unwrap();
    assert_eq!(
        bits(&view::list(&Q, &trimmed).unwrap()),
        expected(&[(4.0, 4.0, -0.5), (4.0, 0.0, 0.0)])
    );
}

#[test]
fn p10_and_p11_verdicts() {
    let with_offset = |offset| PlineViewData {
        end_index_offset: offset,
        ..r()
    };
    assert_eq!(
        view::validate(&Q, &with_offset(5), LINE_LIMIT),
        Ok(ViewDataValidation::OffsetOutOfRange {
            offset: 5,
            source_length: 4
        })
    );
    assert_eq!(
        view::validate(&Q, &with_offset(4), LINE_LIMIT),
        Ok(ViewDataValidation::EndPointNotOnSegment {
            end_point: Vector2::new(2.0, 4.0)
        })
    );

    let ending_on_vertex = PlineViewData {
        end_point: Vector2::new(4.0, 4.0),
        ..r()
    };
    let verdict = view::validate(&Q, &ending_on_vertex, LINE_LIMIT).unwrap();
    assert_eq!(view::verdict_number(&verdict), 5);
}

#[test]
fn p12_roots() {
    assert_eq!(sqrt(4.0), Ok(2.0));
    assert_eq!(sqrt(2.0).unwrap().to_bits(), 0x3ff6_a09e_667f_3bcd);
    assert_eq!(
        sqrt(f64::from_bits(1)).unwrap().to_bits(),
        0x1e60_0000_0000_0000
    );
    assert_eq!(sqrt(-0.0).unwrap().to_bits(), (-0.0f64).to_bits());
    for x in [
        -f64::from_bits(1),
        -1.0,
        f64::NAN,
        f64::INFINITY,
        f64::NEG_INFINITY,
    ] {
        assert_eq!(sqrt(x), Err(1));
    }
}

#[test]
fn run_cases() {
    let single = PlineViewData {
        end_index_offset: 0,
        ..r()
    };
    assert_eq!(view::get(&Q, &single, 2), Err(4));

    let middle = Vector2::new(0.5, -0.5);
    assert_eq!(
        segment::seg_closest_point(&H, middle, 0.0, LINE_LIMIT),
        Err(2)
    );

    let limit = vec![0.0; 3 * 2000];
    let over = vec![0.0; 3 * 2001];
    assert_eq!(view::count(&limit, &r()), Ok(4));
    assert_eq!(view::count(&over, &r()), Err(3));

    let split = segment::seg_split_at_point(&H, middle, 1e-5, LINE_LIMIT).unwrap();
    let quarter = (std::f64::consts::PI / 8.0).tan();
    for bulge in [split.updated_start.bulge, split.split_vertex.bulge] {
        assert!((bulge - quarter).abs() < 1e-8);
    }

    let farther = |distance| {
        segment::seg_distance_is_greater_than(
            &H,
            Vector2::new(0.5, 0.0),
            distance,
            1e-5,
            LINE_LIMIT,
        )
    };
    assert_eq!(farther(0.5), Ok(false));
    assert_eq!(farther(0.25), Ok(true));
}

#[test]
fn refusal_6_is_for_what_is_no_arc() {
    let refused =
        |b, x| segment::seg_arc_radius_and_center(&[0.0, 0.0, b, x, 0.0, 0.0], LINE_LIMIT).err();
    assert_eq!(refused(1e-8, 1.0), None);
    assert_eq!(refused(1e-8f64.next_down(), 1.0), Some(6));
    assert_eq!(refused(0.5, 1e-8), None);
    assert_eq!(refused(0.5, 1e-8f64.next_down()), Some(6));
}

/// A sheet; a view is the six numbers of its record, and lies forward on the first segment.
fn sheet_of(flags: u16, outline: &[f64], views: &[[f64; 6]]) -> Vec<u8> {
    let count = outline.len() / 3;
    let mut bytes: Vec<u8> = Vec::new();
    for field in [1, flags, count as u16, views.len() as u16] {
        bytes.extend(field.to_le_bytes());
    }
    for field in [16, 16 + 24 * count as u32] {
        bytes.extend(u32::to_le_bytes(field));
    }
    for number in outline {
        bytes.extend(number.to_le_bytes());
    }
    for view in views {
        bytes.extend([0; 8]); // start index and offset
        for number in view {
            bytes.extend(number.to_le_bytes());
        }
        bytes.extend([0; 8]); // direction and cut number
    }
    bytes
}

fn text_of(bytes: &[u8]) -> String {
    String::from_utf8(sheet::sheet_text(bytes)).unwrap()
}

#[test]
fn sheet_example() {
    let bytes = sheet_of(0, &H, &[[0.0, 0.0, 1.0, 1.0, 1.0, 0.0]]);
    let text = "\
outline 2 1 open
box 0000000000000000 bfe0000000000000 3ff0000000000000 0000000000000000
view 0 7 cut 2 0
0 0000000000000000 0000000000000000 3ff0000000000000
1 3ff0000000000000 0000000000000000 0000000000000000
";
    assert_eq!(text_of(&bytes), text);

    // One byte short, one long, and each check in its order.
    assert_eq!(
        sheet::sheet_text(&bytes[..bytes.len() - 1]),
        b"refused 11\n"
    );
    let mut damaged = bytes.clone();
    damaged.push(0);
    assert_eq!(sheet::sheet_text(&damaged), b"refused 11\n");
    damaged.pop();
    damaged[22..24].copy_from_slice(&[0xf0, 0x7f]); // the first coordinate: infinite
    assert_eq!(sheet::sheet_text(&damaged), b"refused 1\n");
    damaged[16 + 48 + 56] = 2; // direction
    assert_eq!(sheet::sheet_text(&damaged), b"refused 12\n");
    damaged[2] = 4; // an unknown flag
    assert_eq!(sheet::sheet_text(&damaged), b"refused 11\n");
}

/// Flag bit 1 set: the true box, and the word behind it. The half circle's chord is tilted, so the box that the bit once
/// asked for would be larger: y from -1.5, x up to 5.
#[test]
fn retired_flag() {
    // A half circle about (1.5, 2); the whole circle; the half circle, a line, and back by a half circle about (0, 1).
    const ARC: [f64; 3] = [0.0, 0.0, 1.0];
    let circle = [&ARC[..], &[3.0, 4.0, 1.0]].concat();
    let three = [&ARC[..], &[3.0, 4.0, 0.0, 0.0, 2.0, 1.0]].concat();
    for (flags, outline, text) in [
        (2, &[][..], "outline 0 0 open\nbox none retired\n"),
        (3, &[], "outline 0 0 closed\nbox none retired\n"),
        (2, &ARC, "outline 1 0 open\nbox none retired\n"),
        (3, &ARC, "outline 1 0 closed\nbox none retired\n"),
        (
            2,
            &circle,
            "outline 2 0 open\nbox 0000000000000000 bfe0000000000000 4010000000000000 4010000000000000 retired\n",
        ),
        (
            3,
            &circle,
            "outline 2 0 closed\nbox bff0000000000000 bfe0000000000000 4010000000000000 4012000000000000 retired\n",
        ),
        (
            2,
            &three,
            "outline 3 0 open\nbox 0000000000000000 bfe0000000000000 4010000000000000 4010000000000000 retired\n",
        ),
        (
            3,
            &three,
            "outline 3 0 closed\nbox bff0000000000000 bfe0000000000000 4010000000000000 4010000000000000 retired\n",
        ),
    ] {
        assert_eq!(text_of(&sheet_of(flags, outline, &[])), text);
        // With the bit clear the word is gone, and nothing else.
        let clear = text.replace(" retired", "");
        assert_eq!(text_of(&sheet_of(flags - 2, outline, &[])), clear);
    }

    let view = [0.0, 0.0, 1.0, 1.0, 3.0, 4.0];
    let mut bytes = sheet_of(2, &circle, &[view]);
    let text = "\
outline 2 1 open
box 0000000000000000 bfe0000000000000 4010000000000000 4010000000000000 retired
view 0 7 cut 2 0
0 0000000000000000 0000000000000000 3ff0000000000000
1 4008000000000000 4010000000000000 0000000000000000
";
    assert_eq!(text_of(&bytes), text);

    // A refused sheet has no box line: 1, then 12 and 11 in front of it, as without the bit.
    bytes[22..24].copy_from_slice(&[0xf0, 0x7f]); // the first coordinate: infinite
    assert_eq!(text_of(&bytes), "refused 1\n");
    bytes[16 + 48 + 56] = 2; // direction
    assert_eq!(text_of(&bytes), "refused 12\n");
    for flags in 4..8 {
        bytes[2] = flags;
        assert_eq!(text_of(&bytes), "refused 11\n");
    }
    // Bit 1 of the flags' other byte is not the one that is retired.
    bytes[2..4].copy_from_slice(&[0, 2]);
    assert_eq!(text_of(&bytes), "refused 11\n");
}

/// The last four bytes of a record: any number, the last field of a line that is not refused.
#[test]
fn cut_numbers() {
    let view = [0.0, 0.0, 1.0, 1.0, 1.0, 0.0];
    let line = |bytes: &[u8]| text_of(bytes).lines().nth(2).unwrap().to_string();
    for (number, decimal) in [
        ([0, 0, 0, 0], "0"),
        ([1, 0, 0, 0], "1"),
        ([0, 1, 0, 0], "256"),
        ([0xff, 0xff, 0xff, 0xff], "4294967295"),
    ] {
        let mut bytes = sheet_of(0, &H, &[view]);
        let record = 16 + 48;
        bytes[record + 60..].copy_from_slice(&number);
        assert_eq!(line(&bytes), format!("view 0 7 cut 2 {decimal}"));
        bytes[record + 40..record + 48].copy_from_slice(&3f64.to_le_bytes()); // the end's x
        assert_eq!(line(&bytes), format!("view 0 4 hold 0 {decimal}"));
        bytes[record] = 2; // the start index
        assert_eq!(line(&bytes), "view 0 refused 4");
    }

    let record = record::encode(&r(), 0x0403_0201);
    assert_eq!(record[60..], [1, 2, 3, 4]);
    let (mut out, mut two) = ([0xa5; 64], [0xa5; 64]);
    assert_eq!(Oracle.view_reverse(&Q, &record, &mut out), 0);
    assert_eq!(Oracle.view_trim(&Q, &out, 1, 2, &mut two), 0);
    assert_eq!((&out[60..], &two[60..]), (&record[60..], &record[60..]));
    assert_eq!(
        Oracle.view_from_new_start(&Q, 1, 1.0, 0.0, 0, 1e-5, LINE_LIMIT, &mut two),
        0
    );
    assert_eq!(two[60..], [0; 4]);
    out.fill(0xa5);
    assert_eq!(
        Oracle.view_create(
            &Q,
            0,
            2.0,
            4.0,
            2,
            &[1.0, 0.0, 0.0],
            2,
            1e-5,
            LINE_LIMIT,
            &mut out
        ),
        0
    );
    assert_eq!(out[60..], [0; 4]);
}

const ORIGIN: Vector2 = Vector2 { x: 0.0, y: 0.0 };

/// An arc from (0,0) to (4,0) that bows 2e-7 below the line between them, so its centre is (2,1e7), and the lines back.
const TRACED: [f64; 12] = [0.0, 0.0, 1e-7, 4.0, 0.0, 0.0, 4.0, 4.0, 0.0, 0.0, 4.0, 0.0];

/// Whether a number is the expected one but for so small a part of it.
fn near(found: f64, expected: f64, part: f64) -> bool {
    (found - expected).abs() <= part * expected.abs()
}

/// At the default limit it is an arc.
#[test]
fn a_traced_arc() {
    let seg = &TRACED[..6];
    let (radius, center) = segment::seg_arc_radius_and_center(seg, 1e-8).unwrap();
    assert!(near(radius, 1e7, 1e-13) && center.x == 2.0 && near(center.y, 1e7, 1e-13));
    let aabb = segment::seg_bounding_box(seg, 1e-8).unwrap();
    assert_eq!((aabb.min_x, aabb.max_x, aabb.max_y), (0.0, 4.0, 0.0));
    assert!(near(aabb.min_y, -2e-7, 0.02));
    let middle = segment::seg_midpoint(seg, 1e-8);
    assert_eq!(middle, Ok(Vector2::new(2.0, 0.0 - (1e-7 / 2.0) * 4.0)));

    // At the start the tangent is as long as the radius, and falls by twice the bulge.
    let tangent = segment::seg_tangent_vector(seg, ORIGIN, 1e-8).unwrap();
    assert!(near(tangent.x, 1e7, 1e-13) && near(tangent.y, -2.0, 1e-13));

    let split = segment::seg_split_at_point(seg, Vector2::new(1.0, 0.0), 1e-5, 1e-8).unwrap();
    let (first, second) = (split.updated_start, split.split_vertex);
    assert_eq!(
        (first.pos(), second.pos()),
        (ORIGIN, Vector2::new(1.0, 0.0))
    );
    assert!(near(first.bulge, 2.5e-8, 1e-13) && near(second.bulge, 7.5e-8, 1e-13));

    let below = Vector2::new(2.0, -1.0);
    let closest = segment::seg_closest_point(seg, below, 1e-5, 1e-8).unwrap();
    assert!(closest.x == 2.0 && near(closest.y, -2e-7, 0.02));
    // From (2,-1) the arc is 1 - 2e-7 off.
    let farther = segment::seg_distance_is_greater_than(seg, below, 1.0 - 1e-7, 1e-5, 1e-8);
    assert_eq!(farther, Ok(false));
}

/// At a limit above its bulge it is a line, which keeps its bulge.
#[test]
fn a_traced_arc_as_a_line() {
    let (seg, limit) = (&TRACED[..6], 1e-6);
    assert_eq!(segment::seg_arc_radius_and_center(seg, limit), Err(6));
    let aabb = segment::seg_bounding_box(seg, limit).unwrap();
    let corners = (aabb.min_x, aabb.min_y, aabb.max_x, aabb.max_y);
    assert_eq!(corners, (0.0, 0.0, 4.0, 0.0));
    assert_eq!(
        segment::seg_midpoint(seg, limit),
        Ok(Vector2::new(2.0, 0.0))
    );
    assert_eq!(
        segment::seg_tangent_vector(seg, ORIGIN, limit),
        Ok(Vector2::new(4.0, 0.0))
    );
    let split = segment::seg_split_at_point(seg, Vector2::new(1.0, 0.0), 1e-5, limit).unwrap();
    assert_eq!(split.updated_start, PlineVertex::new(0.0, 0.0, 1e-7));
    assert_eq!(split.split_vertex, PlineVertex::new(1.0, 0.0, 0.0));
    let below = Vector2::new(2.0, -1.0);
    assert_eq!(
        segment::seg_closest_point(seg, below, 1e-5, limit),
        Ok(Vector2::new(2.0, 0.0))
    );
    let farther = segment::seg_distance_is_greater_than(seg, below, 1.0 - 1e-7, 1e-5, limit);
    assert_eq!(farther, Ok(true));
}

/// What `create` and the new start keep of it: a part of the arc, or the line with its bulge.
#[test]
fn views_of_a_traced_arc() {
    let end = Vector2::new(1.0, 0.0);
    let create = |limit| view::create(&TRACED, 3, end, 0, &[0.0, 2.0, 0.0], 1, 1e-5, limit);
    assert!(near(create(1e-8).unwrap().updated_end_bulge, 2.5e-8, 1e-13));
    assert_eq!(create(1e-6).unwrap().updated_end_bulge, 1e-7);

    let from_new_start = |limit| view::from_new_start(&TRACED, true, end, 0, 1e-5, limit).unwrap();
    let arc = from_new_start(1e-8);
    assert!(near(arc.updated_start.bulge, 7.5e-8, 1e-13));
    assert!(near(arc.updated_end_bulge, 2.5e-8, 1e-13));
    let line = from_new_start(1e-6);
    assert_eq!(line.updated_start, PlineVertex::new(1.0, 0.0, 0.0));
    assert_eq!(line.updated_end_bulge, 1e-7);
}

/// An arc of 4 m that bows 0.002 mm below the line, twice what a point may be off.
#[test]
fn verdicts_on_a_traced_arc() {
    let outline = [0.0, 0.0, 1e-6, 4000.0, 0.0, 0.0];
    let from = |y| PlineViewData {
        start_index: 0,
        end_index_offset: 0,
        updated_start: PlineVertex::new(2000.0, y, 1e-6),
        updated_end_bulge: 1e-6,
        end_point: Vector2::new(4000.0, 0.0),
        inverted_direction: false,
    };
    for (y, limit, number, roots) in [
        (-0.002, 1e-8, 7, 1),
        (-0.002, 1e-6, 7, 1),
        (-0.002, 1e-5, 3, 0),
        (0.0, 1e-8, 3, 1),
        (0.0, 1e-6, 3, 1),
        (0.0, 1e-5, 7, 0),
    ] {
        let verdict = view::validate(&outline, &from(y), limit).unwrap();
        assert_eq!(view::verdict_number(&verdict), number, "{y} {limit}");
        let counted = view::validate_counted(&outline, &from(y), limit);
        assert_eq!(counted, Ok((verdict, roots)), "{y} {limit}");
        let cut = view::mark(&outline, false, &from(y), limit);
        assert_eq!(cut, Ok(number == 7), "{y} {limit}");
    }
}

/// On a sheet it is an arc.
#[test]
fn sheets_have_the_default_limit() {
    let outline = [0.0, 0.0, 1e-6, 4000.0, 0.0, 0.0];
    let line = |y| {
        let sheet = sheet_of(0, &outline, &[[2000.0, y, 1e-6, 1e-6, 4000.0, 0.0]]);
        text_of(&sheet).lines().nth(2).unwrap().to_string()
    };
    assert_eq!(line(-0.002), "view 0 7 cut 2 0");
    assert_eq!(line(0.0), "view 0 3 hold 0 0");
}

/// A bulge of the limit is an arc, the number next below it a line.
#[test]
fn the_limit_is_strict() {
    for limit in [1e-8, 1e-6, 1e-3] {
        for sign in [1.0, -1.0] {
            let bulge: f64 = sign * limit;
            let radius = |bulge| {
                segment::seg_arc_radius_and_center(&[0.0, 0.0, bulge, 1.0, 0.0, 0.0], limit).err()
            };
            assert_eq!(radius(bulge), None, "{bulge}");
            let below = sign * limit.next_down();
            assert_eq!(radius(below), Some(6), "{below}");
        }
    }
}

/// The tests of a line's ends, and whether an arc's ends are one point, keep 1e-8.
#[test]
fn other_tests_keep_the_default() {
    let line = [0.0, 0.0, 0.0, 1.0, 0.0, 0.0];
    for x in [1e-7, 1.0 - 1e-7] {
        let p = Vector2::new(x, 1.0);
        let closest = segment::seg_closest_point(&line, p, 1e-5, 1e-3);
        assert_eq!(closest, Ok(Vector2::new(x, 0.0)));
        // Between the ends the line is 1 off, and its ends are a little more.
        let farther = segment::seg_distance_is_greater_than(&line, p, 1.0, 1e-5, 1e-3);
        assert_eq!(farther, Ok(false));
    }

    let arc = [0.0, 0.0, 0.5, 1e-6, 0.0, 0.0];
    let (radius, center) = segment::seg_arc_radius_and_center(&arc, 1e-3).unwrap();
    assert!(near(radius, 6.25e-7, 1e-15) && near(center.x, 5e-7, 1e-15));
    assert!(near(center.y, 3.75e-7, 1e-15));
    let half_circle = [0.0, 0.0, 1.0, 1e-6, 0.0, 0.0];
    let aabb = segment::seg_bounding_box(&half_circle, 1e-3).unwrap();
    assert_eq!((aabb.min_x, aabb.max_x, aabb.max_y), (0.0, 1e-6, 0.0));
    assert!(near(aabb.min_y, -5e-7, 1e-15));
    let one_point = [0.0, 0.0, 0.5, 1e-8f64.next_down(), 0.0, 0.0];
    let radius = segment::seg_arc_radius_and_center(&one_point, 1e-3);
    assert_eq!(radius, Err(6));
}

/// What the eleven calls that take a limit answer with nothing else wrong, or with a first number that is.
fn refusals(limit: f64, first: f64) -> [u8; 11] {
    let (mut seg, mut outline) = (H, Q);
    (seg[0], outline[0]) = (first, first);
    let record = record::encode(&r(), 0);
    let (mut out, mut whole, mut bytes) = ([0.0; 6], [0; 4], [0; 64]);
    let vertex = [1.0, 0.0, 0.0];
    [
        Oracle.seg_arc_radius_and_center(&seg, limit, &mut out),
        Oracle.seg_split_at_point(&seg, 0.5, -0.5, 1e-5, limit, &mut out),
        Oracle.seg_tangent_vector(&seg, 0.5, -0.5, limit, &mut out),
        Oracle.seg_closest_point(&seg, 0.5, -0.5, 1e-5, limit, &mut out),
        Oracle.seg_distance_is_greater_than(&seg, 0.5, 0.0, 0.5, 1e-5, limit, &mut bytes),
        Oracle.seg_bounding_box(&seg, limit, &mut out),
        Oracle.seg_midpoint(&seg, limit, &mut out),
        Oracle.view_create(
            &outline, 0, 2.0, 4.0, 2, &vertex, 2, 1e-5, limit, &mut bytes,
        ),
        Oracle.view_from_new_start(&outline, 1, 1.0, 0.0, 0, 1e-5, limit, &mut bytes),
        Oracle.view_validate(&outline, &record, limit, &mut whole, &mut out),
        Oracle.view_mark(&outline, 1, &record, limit, &mut bytes),
    ]
}

#[test]
fn the_range_of_the_limit() {
    assert_eq!(LINE_LIMIT, 1e-8);
    for limit in [1e-8, 1e-8f64.next_up(), 1e-5, 1e-3f64.next_down(), 1e-3] {
        assert_eq!(refusals(limit, 0.0), [0; 11], "{limit}");
    }
    for limit in [
        1e-8f64.next_down(),
        1e-3f64.next_up(),
        0.0,
        -0.0,
        -1e-5,
        f64::from_bits(1),
        1.0,
        f64::INFINITY,
        f64::NEG_INFINITY,
        f64::NAN,
    ] {
        assert_eq!(refusals(limit, 0.0), [2; 11], "{limit}");
        // A number is refused before it.
        assert_eq!(refusals(limit, f64::NAN), [1; 11], "{limit}");
    }
}

/// Each with a limit that is not in range: 11, 12, 3 and 1 come before it, all else after it, a short buffer last.
#[test]
fn the_limit_in_its_order() {
    let bad = 1e-3f64.next_up();
    let (mut out, mut whole, mut bytes) = ([0.0; 6], [0; 4], [0; 64]);
    let line = [0.0, 0.0, 0.0, 1.0, 0.0, 0.0];
    let radius = |seg: &[f64], limit| segment::seg_arc_radius_and_center(seg, limit).err();
    assert_eq!(
        (radius(&line, 1e-3), radius(&line, bad)),
        (Some(6), Some(2))
    );
    assert_eq!(radius(&line[..5], bad), Some(3));

    let far = Vector2::new(0.0, 1e7);
    let split = segment::seg_split_at_point(&H, far, 1e-5, bad);
    assert_eq!(split.err(), Some(1));
    assert_eq!(segment::seg_tangent_vector(&H, far, bad), Err(1));
    assert_eq!(segment::seg_closest_point(&H, far, 1e-5, bad), Err(1));
    let farther =
        |p, distance| segment::seg_distance_is_greater_than(&H, p, distance, 1e-5, bad).err();
    assert_eq!(
        (farther(far, 1.0), farther(ORIGIN, 1e7)),
        (Some(1), Some(1))
    );
    let start = view::from_new_start(&Q, true, far, 0, 1e-5, bad);
    assert_eq!(start.err(), Some(1));

    let p = Vector2::new(2.0, 0.0);
    let start = |closed, limit| view::from_new_start(&Q, closed, p, 0, 1e-5, limit).err();
    assert_eq!((start(false, 1e-3), start(false, bad)), (Some(10), Some(2)));
    let create = |outline: &[f64], start, x, traverse, limit| {
        let end = Vector2::new(x, 4.0);
        view::create(
            outline,
            start,
            end,
            2,
            &[1.0, 0.0, 0.0],
            traverse,
            1e-5,
            limit,
        )
        .err()
    };
    let on_q = |start, traverse, limit| create(&Q, start, 2.0, traverse, limit);
    assert_eq!((on_q(0, 0, 1e-3), on_q(0, 0, bad)), (Some(5), Some(2)));
    assert_eq!((on_q(4, 2, 1e-3), on_q(4, 2, bad)), (Some(4), Some(2)));
    assert_eq!((on_q(0, 5, 1e-3), on_q(0, 5, bad)), (Some(5), Some(2)));
    assert_eq!(create(&Q, 0, 1e7, 2, bad), Some(1));
    assert_eq!(create(&Q[..3], 0, 2.0, 2, bad), Some(3));

    let number = |outline: &[f64], start_index, end_index_offset, limit| {
        let record = PlineViewData {
            start_index,
            end_index_offset,
            ..r()
        };
        let cut = view::mark(outline, true, &record, limit);
        let verdict = view::validate(outline, &record, limit);
        assert_eq!(cut.err(), verdict.err());
        verdict.map(|verdict| view::verdict_number(&verdict))
    };
    assert_eq!(number(&[], 0, 2, 1e-3), Ok(1));
    assert_eq!(number(&[], 0, 2, bad), Err(2));
    assert_eq!(number(&Q, 0, 5, 1e-3), Ok(2));
    assert_eq!(number(&Q, 0, 5, bad), Err(2));
    assert_eq!(number(&Q, 4, 2, 1e-3), Err(4));
    assert_eq!(number(&Q, 4, 2, bad), Err(2));
    assert_eq!(number(&Q[..4], 0, 2, bad), Err(3));
    let beyond = PlineViewData {
        updated_end_bulge: 2.0,
        ..r()
    };
    assert_eq!(view::validate(&Q, &beyond, bad).err(), Some(1));

    let record = record::encode(&r(), 0);
    let mut direction_2 = record;
    direction_2[56] = 2;
    for (record, refusal) in [(&record[..63], 11), (&direction_2[..], 12)] {
        let validate = Oracle.view_validate(&Q, record, bad, &mut whole, &mut out);
        let mark = Oracle.view_mark(&Q, 1, record, bad, &mut bytes);
        assert_eq!((validate, mark), (refusal, refusal));
    }

    for (limit, refusal) in [(1e-3, 8), (bad, 2)] {
        assert_eq!(Oracle.seg_midpoint(&H, limit, &mut out[..1]), refusal);
        let short = &mut whole[..3];
        let validate = Oracle.view_validate(&Q, &record, limit, short, &mut out);
        assert_eq!(validate, refusal);
    }
}
