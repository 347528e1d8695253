//! Times the library that is judged against the Rust text with document 01's checks, in one run: `bench`.
//!
//! For each row both sides make the same calls on the same prepared inputs, in turns; the median of the rounds
//! counts. Neither side is inlined into the loop. Answer buffers are not cleared between calls. The line limit is the default,
//! at which the text is the published one over f64.

use cases::case::Call;
use cases::generate::Generator;
use cases::largest::{median, print_row, print_rows, rust_sheet_program};
use cases::random::Random;
use cases::sheets::{largest_outline, sheet_program, whole_view};
use cases::start::{numbers, or_end};
use face::Bisquefern;
use oracle::record::encode;
use oracle::{LINE_LIMIT, Library, Oracle};
use std::hint::black_box;
use std::time::Instant;

const CASES: usize = 4096;
/// Many short rounds, so that the median leaves out those in which something else ran.
const ROUNDS: usize = 61;

fn main() {
    let [] = numbers("bench, with nothing behind it", []);
    if !cfg!(target_arch = "x86_64") {
        or_end(Err::<(), _>(
            "bench: the library is for x86-64, and a time under an emulator says nothing"
                .to_string(),
        ));
    }
    let programs = [or_end(sheet_program()), or_end(rust_sheet_program())];

    println!(
        "{:48} {:>12} {:>12} {:>7}",
        "call", "ours ns", "Rust ns", "ratio"
    );
    roots();
    segments();
    views();
    large();
    print_rows(&programs);
}

/// Answer buffers with room for every call; each side has its own.
struct Room {
    numbers: Vec<f64>,
    wholes: [u64; 4],
    bytes: [u8; 64],
}

impl Room {
    fn new() -> Self {
        Room {
            numbers: vec![0.0; 3 * 2002],
            wholes: [0; 4],
            bytes: [0; 64],
        }
    }
}

/// Times two closures over the case numbers below `cases`, in turns, and prints the row.
fn compare(
    name: &str,
    cases: usize,
    ours: impl Fn(usize, &mut Room),
    rust: impl Fn(usize, &mut Room),
) {
    let (mut our_room, mut rust_room) = (Room::new(), Room::new());
    let mut ours = |k| ours(k, &mut our_room);
    let mut rust = |k| rust(k, &mut rust_room);

    /// Nanoseconds for one case, over some passes.
    fn time(cases: usize, passes: usize, run: &mut impl FnMut(usize)) -> f64 {
        let start = Instant::now();
        for _ in 0..passes {
            (0..cases).for_each(&mut *run);
        }
        start.elapsed().as_nanos() as f64 / (cases * passes) as f64
    }
    /// As many passes as take about half a millisecond.
    fn passes(cases: usize, run: &mut impl FnMut(usize)) -> usize {
        let one = time(cases, 1, run) * cases as f64;
        (0.5e6 / one).ceil() as usize
    }

    let (our_passes, rust_passes) = (passes(cases, &mut ours), passes(cases, &mut rust));
    let (mut our_times, mut rust_times) = (Vec::new(), Vec::new());
    for _ in 0..ROUNDS {
        our_times.push(time(cases, our_passes, &mut ours));
        rust_times.push(time(cases, rust_passes, &mut rust));
    }
    print_row(name, median(our_times), median(rust_times));
}

/// One row: the same expression for both libraries.
macro_rules! row {
    ($name:expr, $cases:expr, |$library:ident, $case:ident, $room:ident| $call:expr) => {
        compare(
            $name,
            $cases.len(),
            |k, $room| {
                let ($library, $case) = (Bisquefern, black_box(&$cases[k]));
                let refusal = $call;
                black_box(refusal);
            },
            |k, $room| {
                let ($library, $case) = (Oracle, black_box(&$cases[k]));
                let refusal = $call;
                black_box(refusal);
            },
        )
    };
}

/// A row of validation. The text does not count its roots, so its verdict is timed without.
fn validate_row<'a, C>(name: &str, cases: &'a [C], lend: impl Fn(&'a C) -> (&'a [f64], &'a [u8])) {
    compare(
        name,
        cases.len(),
        |k, room| {
            let (outline, record) = lend(black_box(&cases[k]));
            let (wholes, numbers) = (&mut room.wholes, &mut room.numbers);
            black_box(Bisquefern.view_validate(outline, record, LINE_LIMIT, wholes, numbers));
        },
        |k, room| {
            let (outline, record) = lend(black_box(&cases[k]));
            let (wholes, numbers) = (&mut room.wholes, &mut room.numbers);
            black_box(Oracle.verdict(outline, record, LINE_LIMIT, wholes, numbers));
        },
    )
}

fn roots() {
    let mut random = Random::new(1);
    let inputs: [(&str, Vec<f64>); 3] = [
        (
            "from 2^-40 to 2^40",
            (0..CASES).map(|_| random.magnitude(-40, 40)).collect(),
        ),
        (
            "all finite numbers",
            (0..CASES).map(|_| random.magnitude(-1022, 1024)).collect(),
        ),
        (
            "subnormals",
            (0..CASES)
                .map(|_| f64::from_bits(random.bits() >> 12))
                .collect(),
        ),
    ];
    for (name, inputs) in inputs {
        let name = format!("sqrt, {name}");
        row!(
            &format!("{name}: machine's root"),
            inputs,
            |library, x, room| { library.sqrt(*x, &mut room.numbers) }
        );

        assert!(inputs.iter().all(|x| digit_root(*x) == x.sqrt()));
        compare(
            &format!("{name}: digit by digit"),
            inputs.len(),
            |k, room| {
                black_box(Bisquefern.sqrt(black_box(inputs[k]), &mut room.numbers));
            },
            |k, room| {
                black_box(digit_sqrt(black_box(inputs[k]), &mut room.numbers));
            },
        );
    }
}

/// The square root with its refusals, by `digit_root`.
#[inline(never)]
fn digit_sqrt(x: f64, out: &mut [f64]) -> u8 {
    if !(x.is_finite() && x >= 0.0) {
        return 1;
    }
    let Some(place) = out.first_mut() else {
        return 8;
    };
    *place = if x == 0.0 { x } else { digit_root(x) };
    0
}

/// The root of a positive finite number, one binary digit at a time.
fn digit_root(x: f64) -> f64 {
    let bits = x.to_bits();
    let (mut exponent, mut significand) = ((bits >> 52) as i64, bits & ((1 << 52) - 1));
    if exponent == 0 {
        let places = significand.leading_zeros() - 11;
        significand <<= places;
        exponent = 1 - i64::from(places);
    } else {
        significand |= 1 << 52;
    }
    // x = significand * 2^power; an even power halves.
    let mut power = exponent - 1075;
    if power % 2 != 0 {
        significand <<= 1;
        power -= 1;
    }

    // The root of significand * 2^54 has 54 digits; the last one rounds.
    let mut rest = u128::from(significand) << 54;
    let mut root: u128 = 0;
    let mut digit: u128 = 1 << 106;
    while digit != 0 {
        if rest >= root + digit {
            rest -= root + digit;
            root = (root >> 1) + digit;
        } else {
            root >>= 1;
        }
        digit >>= 2;
    }
    let rounded = (root as u64 + 1) >> 1;
    let result = (power - 54) / 2 + 1;
    // `rounded` has 53 digits, or is 2^53, which carries into the exponent.
    f64::from_bits((((result + 1074) as u64) << 52) + rounded)
}

struct PointCase {
    seg: [f64; 6],
    x: f64,
    y: f64,
    distance: f64,
    tolerance: f64,
}

fn segments() {
    let mut generator = Generator::small(2);
    let vertices: Vec<[f64; 3]> = (0..CASES)
        .map(|_| generator.segment(1e-5))
        .map(|seg| [seg[0], seg[1], seg[2]])
        .collect();
    row!("vertex", vertices, |library, v, room| library
        .vertex(v, &mut room.numbers));

    for kind in ["lines", "arcs"] {
        let mut cases: Vec<PointCase> = Vec::new();
        while cases.len() < CASES {
            let tolerance = 1e-5;
            let seg = generator.segment(tolerance);
            let p = generator.point_beside(&seg, tolerance);
            let distance = generator.distance(&seg, p);
            let is_arc = oracle::segment::seg_arc_radius_and_center(&seg, LINE_LIMIT).is_ok();
            let answers = Oracle.seg_distance_is_greater_than(
                &seg,
                p.x,
                p.y,
                distance,
                tolerance,
                LINE_LIMIT,
                &mut [0],
            ) == 0;
            if answers && is_arc == (kind == "arcs") {
                cases.push(PointCase {
                    seg,
                    x: p.x,
                    y: p.y,
                    distance,
                    tolerance,
                });
            }
        }

        let name = |call: Call| format!("{} {kind}", call_name(call));
        if kind == "arcs" {
            row!(
                &name(Call::SegArcRadiusAndCenter),
                cases,
                |library, c, room| {
                    library.seg_arc_radius_and_center(&c.seg, LINE_LIMIT, &mut room.numbers)
                }
            );
        }
        row!(&name(Call::SegSplitAtPoint), cases, |library, c, room| {
            library.seg_split_at_point(&c.seg, c.x, c.y, c.tolerance, LINE_LIMIT, &mut room.numbers)
        });
        row!(&name(Call::SegTangentVector), cases, |library, c, room| {
            library.seg_tangent_vector(&c.seg, c.x, c.y, LINE_LIMIT, &mut room.numbers)
        });
        row!(&name(Call::SegClosestPoint), cases, |library, c, room| {
            library.seg_closest_point(&c.seg, c.x, c.y, c.tolerance, LINE_LIMIT, &mut room.numbers)
        });
        row!(
            &name(Call::SegDistanceIsGreaterThan),
            cases,
            |library, c, room| {
                library.seg_distance_is_greater_than(
                    &c.seg,
                    c.x,
                    c.y,
                    c.distance,
                    c.tolerance,
                    LINE_LIMIT,
                    &mut room.bytes,
                )
            }
        );
        row!(&name(Call::SegBoundingBox), cases, |library, c, room| {
            library.seg_bounding_box(&c.seg, LINE_LIMIT, &mut room.numbers)
        });
        row!(&name(Call::SegMidpoint), cases, |library, c, room| {
            library.seg_midpoint(&c.seg, LINE_LIMIT, &mut room.numbers)
        });
    }
}

struct ViewCase {
    outline: Vec<f64>,
    record: [u8; 64],
    position: u64,
    vertex: [f64; 3],
    end: [f64; 2],
    start: u64,
    traverse: u64,
}

/// Cases on outlines of 2 to 12 vertices, valid for every view call.
fn views() {
    let mut generator = Generator::small(3);
    let mut cases: Vec<ViewCase> = Vec::new();
    while cases.len() < CASES {
        let outline = generator.outline();
        let record = generator.record(&outline);
        let valid = oracle::view::mark(&outline, true, &record, LINE_LIMIT) == Ok(true);
        if valid && oracle::view::reverse(&outline, &record).is_ok() {
            cases.push(ViewCase {
                position: generator.random.bits() % (record.end_index_offset as u64 + 2),
                vertex: [
                    record.updated_start.x,
                    record.updated_start.y,
                    record.updated_start.bulge,
                ],
                end: [record.end_point.x, record.end_point.y],
                start: record.start_index as u64,
                traverse: record.end_index_offset.max(1) as u64,
                record: encode(&record, 0),
                outline,
            });
        }
    }

    let name = |call: Call| format!("{} to 12 vertices", call_name(call));
    row!(&name(Call::ViewCreate), cases, |library, c, room| {
        let intersect = (c.start + c.traverse) % (c.outline.len() as u64 / 3);
        library.view_create(
            &c.outline,
            c.start,
            c.end[0],
            c.end[1],
            intersect,
            &c.vertex,
            c.traverse,
            1e-5,
            LINE_LIMIT,
            &mut room.bytes,
        )
    });
    row!(&name(Call::ViewFromNewStart), cases, |library, c, room| {
        library.view_from_new_start(
            &c.outline,
            1,
            c.vertex[0],
            c.vertex[1],
            c.start,
            1e-5,
            LINE_LIMIT,
            &mut room.bytes,
        )
    });
    validate_row(&name(Call::ViewValidate), &cases, |c| {
        (&c.outline, &c.record)
    });
    row!(&name(Call::ViewMark), cases, |library, c, room| {
        library.view_mark(&c.outline, 1, &c.record, LINE_LIMIT, &mut room.bytes)
    });
    row!(&name(Call::ViewCount), cases, |library, c, room| {
        library.view_count(&c.outline, &c.record, &mut room.wholes)
    });
    row!(&name(Call::ViewGet), cases, |library, c, room| {
        library.view_get(&c.outline, &c.record, c.position, &mut room.numbers)
    });
    row!(&name(Call::ViewList), cases, |library, c, room| {
        library.view_list(&c.outline, &c.record, &mut room.numbers, &mut room.wholes)
    });
    row!(&name(Call::ViewReverse), cases, |library, c, room| {
        library.view_reverse(&c.outline, &c.record, &mut room.bytes)
    });
    row!(&name(Call::ViewTrim), cases, |library, c, room| {
        library.view_trim(&c.outline, &c.record, 0, 1, &mut room.bytes)
    });
}

/// Calls on the longest outline.
fn large() {
    let outline = largest_outline();
    for (direction, first) in [("forward", 0), ("inverted", 4)] {
        let records: Vec<[u8; 64]> = (0..250)
            .map(|k| encode(&whole_view(&outline, first + 8 * k), 0))
            .collect();
        let name = |call: &str| format!("{call} 2,000 vertices, {direction}");
        row!(
            &name("view_list, 2,002 of"),
            records,
            |library, record, room| {
                library.view_list(&outline, record, &mut room.numbers, &mut room.wholes)
            }
        );
        validate_row(&name("view_validate"), &records, |record| {
            (&outline, record)
        });
        row!(&name("view_get"), records, |library, record, room| {
            library.view_get(&outline, record, 1000, &mut room.numbers)
        });
        row!(&name("view_trim"), records, |library, record, room| {
            library.view_trim(&outline, record, 100, 1900, &mut room.bytes)
        });
    }
}

/// A call's name as the C face has it.
fn call_name(call: Call) -> String {
    let mut name = String::new();
    for letter in format!("{call:?}").chars() {
        if letter.is_uppercase() && !name.is_empty() {
            name.push('_');
        }
        name.push(letter.to_ascii_lowercase());
    }
    name
}
