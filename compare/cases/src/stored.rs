//! The stored list of cases: the same on every machine, with the oracle's answers.

use crate::case::{Call, Case};
use crate::generate::Generator;
use crate::random::Random;
use crate::sheets::{largest_outline, whole_view};
use oracle::record::encode;
use oracle::{LINE_LIMIT, Oracle, PlineVertex, PlineViewData, Vector2};

const SEED: u64 = 2026;

/// Cases for the square root: every exponent, both ends of the subnormals, squares and their neighbours, the hardest
/// to round, and everything that is refused.
pub fn roots() -> Vec<Case> {
    let mut random = Random::new(SEED);
    let mut radicands = vec![0.0, -0.0, 1.0, 2.0, 4.0, f64::MAX, f64::MIN_POSITIVE];

    for exponent in 1..2047u64 {
        let fraction = random.bits() >> 12;
        radicands.push(f64::from_bits(exponent << 52));
        radicands.push(f64::from_bits(exponent << 52 | fraction));
    }

    radicands.extend([1, 2, 3, (1 << 52) - 2, (1 << 52) - 1].map(f64::from_bits));
    for place in 0..52 {
        let fraction = random.bits() >> (64 - place).min(63);
        radicands.push(f64::from_bits(1 << place | fraction & ((1 << place) - 1)));
    }

    for root in 3..20u64 {
        radicands.push((root * root) as f64);
    }
    for _ in 0..20 {
        let root = (random.bits() >> 38) as f64;
        let square = root * root;
        radicands.extend([square.next_down(), square, square.next_up()]);
    }
    for _ in 0..60 {
        // Near the square of a number midway between two floats.
        let midway = u128::from(random.bits() >> 11 | 1 << 52) * 2 + 1;
        radicands.push((midway * midway) as f64);
    }

    let nans = [
        0x7ff8_0000_0000_0000,
        0xfff8_0000_0000_0000,
        0x7ff0_0000_0000_0001,
        0xfff0_0000_0000_0001,
        0x7fff_ffff_ffff_ffff,
        0xffff_ffff_ffff_ffff,
    ];
    radicands.extend(nans.map(f64::from_bits));
    radicands.extend([f64::INFINITY, f64::NEG_INFINITY, -f64::MAX, -1.0]);
    radicands.extend([-f64::MIN_POSITIVE, -f64::from_bits(1), -4.0]);

    let root = |x: &f64| Case::new(Call::Sqrt).number(*x).room(1);
    let mut cases: Vec<Case> = radicands.iter().map(root).collect();
    cases.push(Case::new(Call::Sqrt).number(4.0).room(0));
    cases.push(Case::new(Call::Sqrt).number(-4.0).room(0));
    cases.push(Case::new(Call::Sqrt).number(4.0).room(3));
    cases
}

/// Document 01's outline Q.
pub const Q: [f64; 12] = [0.0, 0.0, 0.0, 4.0, 0.0, 0.5, 4.0, 4.0, 0.0, 0.0, 4.0, 0.0];

/// The cases that document 01 checked by hand, the roots aside.
fn by_hand() -> Vec<Case> {
    let h = [0.0, 0.0, 1.0, 1.0, 0.0, 0.0];
    let p4 = [2.0, 2.0, 1.0, 4.0, 2.0, 0.0];
    let r = PlineViewData {
        start_index: 0,
        end_index_offset: 2,
        updated_start: PlineVertex::new(1.0, 0.0, 0.0),
        updated_end_bulge: 0.0,
        end_point: Vector2::new(2.0, 4.0),
        inverted_direction: false,
    };
    let reversed = PlineViewData {
        inverted_direction: true,
        ..r
    };
    // What trim 1 to 2 makes of the reversed record.
    let trimmed = PlineViewData {
        start_index: 1,
        end_index_offset: 0,
        updated_start: PlineVertex::new(4.0, 0.0, 0.5),
        updated_end_bulge: 0.5,
        end_point: Vector2::new(4.0, 4.0),
        inverted_direction: true,
    };
    let offset = |end_index_offset| PlineViewData {
        end_index_offset,
        ..r
    };
    let end_on_vertex = PlineViewData {
        end_point: Vector2::new(4.0, 4.0),
        ..r
    };

    let seg = |call, seg: &[f64]| Case::new(call).numbers(seg);
    let split = |x, y, eps: f64| {
        let case = seg(Call::SegSplitAtPoint, &h).number(x).number(y);
        case.number(eps).number(LINE_LIMIT).room(6)
    };
    let farther = |distance: f64| {
        let case = seg(Call::SegDistanceIsGreaterThan, &h);
        let case = case.number(0.5).number(0.0).number(distance);
        case.number(1e-5).number(LINE_LIMIT).room(1)
    };
    let tangent = |x, y| {
        let case = seg(Call::SegTangentVector, &p4);
        case.number(x).number(y).number(LINE_LIMIT).room(2)
    };
    let on_q = |call, record: &PlineViewData| Case::new(call).numbers(&Q).bytes(&encode(record, 0));
    let validate = |record: &PlineViewData| {
        let case = on_q(Call::ViewValidate, record).number(LINE_LIMIT);
        case.room(4).room(5)
    };
    let list = |record: &PlineViewData| on_q(Call::ViewList, record).room(12).room(1);
    vec![
        seg(Call::SegArcRadiusAndCenter, &h)
            .number(LINE_LIMIT)
            .room(3),
        seg(Call::SegBoundingBox, &h).number(LINE_LIMIT).room(4),
        seg(Call::SegMidpoint, &h).number(LINE_LIMIT).room(2),
        tangent(3.0, 1.0),
        tangent(2.0, 2.0),
        split(3.0, 0.0, 1e-5),
        split(0.5, -0.5, 1e-5),
        split(0.5, -0.5, 0.0),
        farther(0.5),
        farther(0.25),
        list(&r),
        list(&reversed),
        list(&trimmed),
        on_q(Call::ViewReverse, &r).room(64),
        on_q(Call::ViewTrim, &reversed).whole(1).whole(2).room(64),
        validate(&r),
        validate(&offset(5)),
        validate(&offset(4)),
        validate(&end_on_vertex),
        on_q(Call::ViewGet, &offset(0)).whole(2).room(3),
    ]
}

/// A few cases on long outlines: of 2,000 vertices, the limit, of 2,001, and of 1,025, which were too many once.
pub fn long() -> Vec<Case> {
    let limit = largest_outline();
    let over = [&limit[..], &[0.0; 3]].concat();
    let once_over = &limit[..3 * 1025];
    let (forward, inverted) = (whole_view(&limit, 1992), whole_view(&limit, 1996));
    let count = |outline: &[f64], record: &PlineViewData| {
        let case = Case::new(Call::ViewCount).numbers(outline);
        case.bytes(&encode(record, 0)).room(1)
    };
    let on_limit = |call, record| Case::new(call).numbers(&limit).bytes(&encode(record, 0));
    vec![
        count(once_over, &whole_view(once_over, 1000)),
        count(&limit, &forward),
        count(&over, &forward),
        on_limit(Call::ViewList, &forward).room(3 * 2002).room(1),
        on_limit(Call::ViewList, &inverted).room(3 * 2002).room(1),
        on_limit(Call::ViewList, &inverted)
            .room(3 * 2002 - 1)
            .room(1),
        on_limit(Call::ViewValidate, &inverted)
            .number(LINE_LIMIT)
            .room(4)
            .room(5),
        on_limit(Call::ViewGet, &inverted).whole(1500).room(3),
        on_limit(Call::ViewTrim, &inverted)
            .whole(100)
            .whole(1900)
            .room(64),
    ]
}

/// For every call some cases of each answer: many that answer, some of each refusal and of each verdict.
fn drawn() -> Vec<Case> {
    const ANSWERS: usize = 60;
    const REFUSALS: usize = 6;
    let mut generator = Generator::small(SEED);
    let mut cases = Vec::new();
    for call in Call::ALL {
        if call == Call::Sqrt {
            continue;
        }
        let mut missing = [0; 13];
        for refusal in call.refusals() {
            missing[usize::from(*refusal)] = REFUSALS;
        }
        missing[0] = ANSWERS;
        let mut verdicts = [ANSWERS / 6; 8];
        while missing.iter().any(|wanted| *wanted > 0) {
            let case = generator.case_for(call);
            let outcome = case.run(&Oracle);
            let wanted = &mut missing[usize::from(outcome.refusal)];
            if *wanted == 0 {
                continue;
            }
            if call == Call::ViewValidate && outcome.refusal == 0 {
                let wanted = &mut verdicts[outcome.verdict()];
                if *wanted == 0 {
                    continue;
                }
                *wanted -= 1;
            }
            *wanted -= 1;
            cases.push(case);
        }
    }
    cases
}

/// Q's four vertices once round from the middle of each segment, in both directions: looked up at the positions 3, 4
/// and 5, one less than the vertex count, the count and one more; trimmed to begin at 3 and at 4; listed; validated.
pub fn round() -> Vec<Case> {
    let mut cases = Vec::new();
    for (start, inverted_direction) in (0..4).flat_map(|start| [(start, false), (start, true)]) {
        let record = PlineViewData {
            inverted_direction,
            ..whole_view(&Q, start)
        };
        let on_q = |call| Case::new(call).numbers(&Q).bytes(&encode(&record, 0));
        for position in [3, 4, 5] {
            cases.push(on_q(Call::ViewGet).whole(position).room(3));
        }
        for i in [3, 4] {
            cases.push(on_q(Call::ViewTrim).whole(i).whole(5).room(64));
        }
        cases.push(on_q(Call::ViewList).room(18).room(1));
        let validation = on_q(Call::ViewValidate).number(LINE_LIMIT);
        cases.push(validation.room(4).room(5));
    }
    cases
}

/// The middles of Q's four segments.
const MIDDLES: [[f64; 2]; 4] = [[2.0, 0.0], [5.0, 2.0], [2.0, 4.0], [0.0, 2.0]];

/// A valid view on Q, from the middle of a segment to the end of the one that lies `offset` past it.
pub fn along_q(start_index: usize, end_index_offset: usize, inverted: bool) -> PlineViewData {
    let [x, y] = MIDDLES[start_index];
    let end = 3 * ((start_index + end_index_offset + 1) % 4);
    PlineViewData {
        start_index,
        end_index_offset,
        updated_start: PlineVertex::new(x, y, 0.0),
        updated_end_bulge: 0.0,
        end_point: Vector2::new(Q[end], Q[end + 1]),
        inverted_direction: inverted,
    }
}

/// Marks at the gap of an open outline. On Q every start and every offset, in both directions, open and closed; then
/// outlines of no vertex, of one and of two.
pub fn gap() -> Vec<Case> {
    let mark = |outline: &[f64], closed: u8, record: &PlineViewData| {
        let case = Case::new(Call::ViewMark).numbers(outline);
        case.whole(u64::from(closed))
            .bytes(&encode(record, 0))
            .number(LINE_LIMIT)
            .room(1)
    };
    let mut cases = Vec::new();
    for (start, offset) in (0..4).flat_map(|start| (0..=4).map(move |offset| (start, offset))) {
        for (inverted, closed) in [(false, 0), (false, 1), (true, 0), (true, 1)] {
            cases.push(mark(&Q, closed, &along_q(start, offset, inverted)));
        }
    }

    let line = [0.0, 0.0, 0.0, 1.0, 0.0, 0.0];
    let at = |start_index, end_index_offset, end| PlineViewData {
        start_index,
        end_index_offset,
        updated_start: PlineVertex::new(0.5, 0.0, 0.0),
        end_point: Vector2::new(end, 0.0),
        ..along_q(0, 0, false)
    };
    for closed in [0, 1] {
        for vertices in [&line[..0], &line[..3]] {
            cases.push(mark(vertices, closed, &at(0, 0, 1.0)));
            cases.push(mark(
                vertices,
                closed,
                &at(u32::MAX as usize, u32::MAX as usize, 1.0),
            ));
        }
        cases.push(mark(&line, closed, &at(0, 0, 1.0)));
        cases.push(mark(&line, closed, &at(0, 1, 0.0)));
        cases.push(mark(&line, closed, &at(1, 0, 0.0)));
    }
    cases
}

/// An arc from (0,0) to (1,0) that a point off it turns, (-1,1), and the same bowed to the other side; then the first
/// one's two results, each split again at that point: a half circle at its end, and the turned arc at its start. Last an
/// arc at a point that is as far from its start as its end is.
pub fn turned() -> Vec<Case> {
    let split = |seg: [f64; 6], x: f64, y: f64| {
        let case = Case::new(Call::SegSplitAtPoint).numbers(&seg);
        let case = case.number(x).number(y).number(1e-5);
        case.number(LINE_LIMIT).room(6)
    };
    vec![
        split([0.0, 0.0, 0.5, 1.0, 0.0, 0.0], -1.0, 1.0),
        split([0.0, 0.0, -0.5, 1.0, 0.0, 0.0], -1.0, 1.0),
        split([0.0, 0.0, 1.0, -1.0, 1.0, -1.0 / 3.0], -1.0, 1.0),
        split([-1.0, 1.0, -1.0 / 3.0, 1.0, 0.0, 0.0], -1.0, 1.0),
        split([0.0, 0.0, 0.15625, 1.0, 0.0, 0.0], 0.0, 1.0),
    ]
}

/// The cut number at its ends, on Q: reversals and trims, refused ones too, and the calls that do not look at it.
pub fn numbered() -> Vec<Case> {
    let mut cases = Vec::new();
    for (number, inverted) in
        [0, 1, 1 << 16, u32::MAX - 1, u32::MAX].map(|number| (number, number % 2 == 1))
    {
        let record = encode(&along_q(0, 2, inverted), number);
        let on_q = |call| Case::new(call).numbers(&Q).bytes(&record);
        cases.push(on_q(Call::ViewReverse).room(64));
        cases.push(on_q(Call::ViewTrim).whole(0).whole(3).room(64));
        cases.push(on_q(Call::ViewTrim).whole(1).whole(2).room(64));
        cases.push(on_q(Call::ViewTrim).whole(2).whole(2).room(64));
        cases.push(on_q(Call::ViewReverse).room(63));
        cases.push(on_q(Call::ViewList).room(12).room(1));
        cases.push(on_q(Call::ViewGet).whole(1).room(3));
        cases.push(on_q(Call::ViewCount).room(1));
        let validation = on_q(Call::ViewValidate).number(LINE_LIMIT);
        cases.push(validation.room(4).room(5));
        let mark = Case::new(Call::ViewMark).numbers(&Q).whole(1);
        cases.push(mark.bytes(&record).number(LINE_LIMIT).room(1));
    }
    cases
}

/// The half circle about (5,0) from (0,0) to (10,0), below the line between them, and that line back.
pub const ARCH: [f64; 6] = [0.0, 0.0, 1.0, 10.0, 0.0, 0.0];

/// Verdicts by the square roots that they take. Along the half circle: none from end to end, one to a point between, two
/// between two such points; one and none where the start is off it and at its centre; two where the end is off it. Along
/// the line back none. One from within 0.001 mm of the half circle's end, two from just past that. Then on Q, which has
/// lines and an arc; last a buffer of three words.
pub fn rooted() -> Vec<Case> {
    let along = |start_index, [x, y]: [f64; 2], [end_x, end_y]: [f64; 2], bulge| PlineViewData {
        start_index,
        end_index_offset: 0,
        updated_start: PlineVertex::new(x, y, bulge),
        updated_end_bulge: bulge,
        end_point: Vector2::new(end_x, end_y),
        inverted_direction: false,
    };
    let arch = |from, to| along(0, from, to, 1.0);
    let validate = |outline: &[f64], record: &PlineViewData, words| {
        let case = Case::new(Call::ViewValidate).numbers(outline);
        let case = case.bytes(&encode(record, 0)).number(LINE_LIMIT);
        case.room(words).room(5)
    };
    let on_arch = |record: PlineViewData| validate(&ARCH, &record, 4);
    vec![
        on_arch(arch([0.0, 0.0], [10.0, 0.0])),
        on_arch(arch([0.0, 0.0], [8.0, -4.0])),
        on_arch(arch([2.0, -4.0], [8.0, -4.0])),
        on_arch(arch([5.0, -4.0], [8.0, -4.0])),
        on_arch(arch([5.0, 0.0], [8.0, -4.0])),
        on_arch(arch([2.0, -4.0], [5.0, -4.0])),
        on_arch(along(1, [8.0, 0.0], [2.0, 0.0], 0.0)),
        on_arch(arch([0.0009, 0.0009], [8.0, -4.0])),
        on_arch(arch([0.0, -0.0011], [8.0, -4.0])),
        validate(&Q, &along_q(0, 2, false), 4),
        validate(&Q, &along_q(1, 2, true), 4),
        validate(&Q, &along_q(0, 5, false), 4),
        validate(&ARCH, &arch([2.0, -4.0], [8.0, -4.0]), 3),
    ]
}

/// An arc from (0,0) to (4,0) that bows 0.0000002 mm below the line between them, and the lines back by (4,4) and (0,4).
pub const TRACED: [f64; 12] = [0.0, 0.0, 1e-7, 4.0, 0.0, 0.0, 4.0, 4.0, 0.0, 0.0, 4.0, 0.0];

/// An arc from (0,0) to (4000,0) that bows 0.002 mm below the line between them, twice what validation lets a point be off.
pub const TRACED_LONG: [f64; 6] = [0.0, 0.0, 1e-6, 4000.0, 0.0, 0.0];

/// A view along the first segment, whose bulge it has.
fn along_first(outline: &[f64], [x, y]: [f64; 2], [end_x, end_y]: [f64; 2]) -> PlineViewData {
    PlineViewData {
        start_index: 0,
        end_index_offset: 0,
        updated_start: PlineVertex::new(x, y, outline[2]),
        updated_end_bulge: outline[2],
        end_point: Vector2::new(end_x, end_y),
        inverted_direction: false,
    }
}

/// A segment call: the segment, the numbers between it and the limit, the limit, the room.
fn on_segment(call: Call, seg: &[f64], numbers: &[f64], limit: f64, room: usize) -> Case {
    let case = Case::new(call).numbers(seg);
    let case = numbers.iter().fold(case, |case, x| case.number(*x));
    case.number(limit).room(room)
}

fn validate_at(outline: &[f64], record: &[u8], limit: f64) -> Case {
    let case = Case::new(Call::ViewValidate).numbers(outline);
    case.bytes(record).number(limit).room(4).room(5)
}

fn mark_at(outline: &[f64], record: &[u8], limit: f64) -> Case {
    let case = Case::new(Call::ViewMark).numbers(outline).whole(1);
    case.bytes(record).number(limit).room(1)
}

/// Two traced arcs at the default line limit, where they are arcs, and then at one that makes them lines. The first at 1e-6:
/// the seven segment calls, `create` to (1,0), the new start (1,0), and the verdict from (1,0) to (3,0). The second at 1e-5:
/// verdict and mark from its lowest point to its end, and from the middle of the line to there.
pub fn limited() -> Vec<Case> {
    let mut cases = Vec::new();
    for (limit, limit_of_long) in [(LINE_LIMIT, LINE_LIMIT), (1e-6, 1e-5)] {
        let seg = &TRACED[..6];
        let on = |call, numbers: &[f64], room| on_segment(call, seg, numbers, limit, room);
        let from = |x| encode(&along_first(&TRACED, [x, 0.0], [3.0, 0.0]), 0);
        let outline = |call| Case::new(call).numbers(&TRACED);
        let create = outline(Call::ViewCreate).whole(3).number(1.0).number(0.0);
        let create = create.whole(0).numbers(&[0.0, 2.0, 0.0]).whole(1);
        let start = outline(Call::ViewFromNewStart).whole(1);
        let start = start.number(1.0).number(0.0).whole(0);
        cases.extend([
            on(Call::SegArcRadiusAndCenter, &[], 3),
            on(Call::SegSplitAtPoint, &[1.0, 0.0, 1e-5], 6),
            on(Call::SegTangentVector, &[0.0, 0.0], 2),
            on(Call::SegClosestPoint, &[2.0, -1.0, 1e-5], 2),
            on(
                Call::SegDistanceIsGreaterThan,
                &[2.0, -1.0, 1.0 - 1e-7, 1e-5],
                1,
            ),
            on(Call::SegBoundingBox, &[], 4),
            on(Call::SegMidpoint, &[], 2),
            create.number(1e-5).number(limit).room(64),
            start.number(1e-5).number(limit).room(64),
            validate_at(&TRACED, &from(1.0), limit),
        ]);
        for y in [-0.002, 0.0] {
            let record = along_first(&TRACED_LONG, [2000.0, y], [4000.0, 0.0]);
            let record = encode(&record, 0);
            cases.push(validate_at(&TRACED_LONG, &record, limit_of_long));
            cases.push(mark_at(&TRACED_LONG, &record, limit_of_long));
        }
    }
    cases
}

/// Where the limit itself falls, and what it is not for. Radius and centre of bulges at three limits: the limit, both of its
/// signs, and the number next below it. Then at the greatest limit: a line's closest point and distance by points whose
/// projections are 1e-7 off its ends; an arc's radius and box where its ends are 1e-6 apart, and the radius where they are
/// less than 1e-8 apart.
pub fn limits() -> Vec<Case> {
    let mut cases = Vec::new();
    let radius = |bulge, x, limit| {
        let seg = [0.0, 0.0, bulge, x, 0.0, 0.0];
        on_segment(Call::SegArcRadiusAndCenter, &seg, &[], limit, 3)
    };
    for limit in [LINE_LIMIT, 1e-6, 1e-3] {
        for bulge in [limit, -limit, limit.next_down()] {
            cases.push(radius(bulge, 1.0, limit));
        }
    }
    let line = [0.0, 0.0, 0.0, 1.0, 0.0, 0.0];
    for x in [1e-7, 1.0 - 1e-7] {
        let (closest, distance) = ([x, 1.0, 1e-5], [x, 1.0, 1.0, 1e-5]);
        cases.extend([
            on_segment(Call::SegClosestPoint, &line, &closest, 1e-3, 2),
            on_segment(Call::SegDistanceIsGreaterThan, &line, &distance, 1e-3, 1),
        ]);
    }
    let half_circle = [0.0, 0.0, 1.0, 1e-6, 0.0, 0.0];
    cases.extend([
        radius(1.0, 1e-6, 1e-3),
        on_segment(Call::SegBoundingBox, &half_circle, &[], 1e-3, 4),
        radius(1.0, 1e-8f64.next_down(), 1e-3),
    ]);
    cases
}

/// For each call that takes a line limit a case that answers where this one is in range.
fn each_at(limit: f64) -> Vec<Case> {
    let h = [0.0, 0.0, 1.0, 1.0, 0.0, 0.0];
    let on = |call, numbers: &[f64], room| on_segment(call, &h, numbers, limit, room);
    let record = encode(&along_q(0, 2, false), 0);
    let create = Case::new(Call::ViewCreate).numbers(&Q).whole(0);
    let create = create.number(2.0).number(4.0).whole(2);
    let create = create.numbers(&[2.0, 0.0, 0.0]).whole(2);
    let start = Case::new(Call::ViewFromNewStart).numbers(&Q).whole(1);
    let start = start.number(2.0).number(0.0).whole(0);
    vec![
        on(Call::SegArcRadiusAndCenter, &[], 3),
        on(Call::SegSplitAtPoint, &[0.5, -0.5, 1e-5], 6),
        on(Call::SegTangentVector, &[0.5, -0.5], 2),
        on(Call::SegClosestPoint, &[0.5, -1.0, 1e-5], 2),
        on(Call::SegDistanceIsGreaterThan, &[0.5, -1.0, 0.25, 1e-5], 1),
        on(Call::SegBoundingBox, &[], 4),
        on(Call::SegMidpoint, &[], 2),
        create.number(1e-5).number(limit).room(64),
        start.number(1e-5).number(limit).room(64),
        validate_at(&Q, &record, limit),
        mark_at(&Q, &record, limit),
    ]
}

/// The limit's range, for each of the eleven calls that take it: its two ends, the numbers next beyond them, a NaN, and a bad
/// limit with a coordinate that is a NaN. Then a bad limit beside what is refused before it or after it.
pub fn limits_refused() -> Vec<Case> {
    let bad = 1e-3f64.next_up();
    let mut cases: Vec<Case> = [1e-8, 1e-3, 1e-8f64.next_down(), bad, f64::NAN]
        .into_iter()
        .flat_map(each_at)
        .collect();
    cases.extend(each_at(bad).into_iter().map(|mut case| {
        case.words[1] = f64::NAN.to_bits();
        case
    }));

    let line = [0.0, 0.0, 0.0, 1.0, 0.0, 0.0];
    let record = encode(&along_q(0, 2, false), 0);
    let with_index = |start_index| PlineViewData {
        start_index,
        ..along_q(0, 2, false)
    };
    let past = encode(&with_index(4), 0);
    let offset_past = encode(&along_q(0, 5, false), 0);
    let mut direction_2 = record;
    direction_2[56] = 2;
    let create = |start, traverse| {
        let case = Case::new(Call::ViewCreate).numbers(&Q).whole(start);
        let case = case.number(2.0).number(4.0).whole(2);
        let case = case.numbers(&[2.0, 0.0, 0.0]).whole(traverse);
        case.number(1e-5).number(bad).room(64)
    };
    let open = Case::new(Call::ViewFromNewStart).numbers(&Q).whole(0);
    let open = open.number(2.0).number(0.0).whole(0);
    cases.extend([
        on_segment(Call::SegMidpoint, &line[..5], &[], bad, 2),
        on_segment(Call::SegArcRadiusAndCenter, &line, &[], bad, 3),
        open.number(1e-5).number(bad).room(64),
        create(0, 0),
        create(4, 2),
        validate_at(&[], &record, bad),
        mark_at(&[], &record, bad),
        validate_at(&Q, &offset_past, bad),
        validate_at(&Q, &past, bad),
        mark_at(&Q, &past, bad),
        validate_at(&Q, &record[..63], bad),
        mark_at(&Q, &direction_2, bad),
        on_segment(Call::SegMidpoint, &line, &[], bad, 1),
        on_segment(Call::SegMidpoint, &line, &[], 1e-3, 1),
    ]);
    cases
}

/// The whole stored list.
pub fn all() -> Vec<Case> {
    let parts = [
        roots(),
        by_hand(),
        drawn(),
        numbered(),
        long(),
        round(),
        gap(),
        turned(),
        rooted(),
        limited(),
        limits(),
        limits_refused(),
    ];
    parts.concat()
}

/// A list's stored form, and the oracle's answers to it.
pub fn files(cases: &[Case]) -> (Vec<u8>, String) {
    let mut stored = Vec::new();
    let mut answers = String::new();
    for (number, case) in cases.iter().enumerate() {
        stored.extend(case.stored());
        let outcome = case.run(&Oracle);
        answers += &format!("{number} {}", outcome.refusal);
        for word in outcome.written(case.call) {
            answers += &format!(" {word:016x}");
        }
        answers.push('\n');
    }
    (stored, answers)
}
