//! Rows of splits: a result of each split is split again. Each step is held against the published text, its bulges
//! against the half circle, and its refusal against what the step passes in.

use crate::case::{Call, Case};
use crate::generate::Generator;
use crate::report::{Report, grouped};
use oracle::{LINE_LIMIT, Library, Oracle, Vector2};
use std::fmt;

/// What rows of splits met.
#[derive(Debug, Default)]
pub struct Splits {
    pub rows: u64,
    pub steps: u64,
    /// The steps of the longest row.
    pub longest: u64,
    /// Steps that were refused for their point, their tolerance or their line limit: each ends its row.
    pub refused: u64,
    /// Steps on what is an arc at the default line limit and a line at theirs.
    pub straightened: u64,
    /// Steps on arcs.
    pub arcs: u64,
    /// Those with a result that bows to the other side, and is no line.
    pub turned: u64,
    /// Those of them by a point that is nearer to an end than the ends are to each other.
    pub turned_near: u64,
}

impl fmt::Display for Splits {
    fn fmt(&self, f: &mut fmt::Formatter<'_>) -> fmt::Result {
        let [
            rows,
            steps,
            longest,
            refused,
            straightened,
            arcs,
            turned,
            near,
        ] = [
            self.rows,
            self.steps,
            self.longest,
            self.refused,
            self.straightened,
            self.arcs,
            self.turned,
            self.turned_near,
        ]
        .map(grouped);
        writeln!(
            f,
            "rows of splits: {steps} steps in {rows} rows, the longest of {longest}; {refused} refused for what they passed in"
        )?;
        writeln!(
            f,
            "  {arcs} steps on arcs, {straightened} on arcs that their line limit makes lines; {turned} turned the arc, {near} of them by a point nearer to an end than the ends are to each other"
        )
    }
}

/// Compares at least `steps` steps.
pub fn compare_splits(
    library: &impl Library,
    seed: u64,
    steps: u64,
    report: &mut Report,
) -> Splits {
    let mut generator = Generator::small(seed);
    let mut splits = Splits::default();
    while splits.steps < steps {
        let before = splits.steps;
        row(library, &mut generator, report, &mut splits);
        splits.rows += 1;
        splits.longest = splits.longest.max(splits.steps - before);
    }
    splits
}

/// The steps of a long row.
pub const LONG: u64 = 1000;

fn is_arc(bulge: f64, limit: f64) -> bool {
    bulge.abs() >= limit
}

/// The refusal of what a step passes in: 1 for its point, then 2 for its tolerance and for its line limit.
fn refusal_of(p: Vector2, tolerance: f64, limit: f64) -> u8 {
    if !(p.x.abs() <= 1e6 && p.y.abs() <= 1e6) {
        1
    } else if !(1e-8..=1.0).contains(&tolerance) || !(1e-8..=1e-3).contains(&limit) {
        2
    } else {
        0
    }
}

/// Whether a split's two results stay in the half circle.
pub fn stay(results: &[f64; 6]) -> bool {
    results[2].abs() <= 1.0 && results[5].abs() <= 1.0
}

/// A point of which each number is in range.
fn near(p: Vector2) -> Vector2 {
    let coordinate = |x: f64| if x.is_nan() { 0.0 } else { x.clamp(-1e6, 1e6) };
    Vector2::new(coordinate(p.x), coordinate(p.y))
}

/// Runs one row, from a segment in range. Each step goes on with the library's own answer.
fn row(
    library: &impl Library,
    generator: &mut Generator,
    report: &mut Report,
    splits: &mut Splits,
) {
    // A long row passes in nothing that is refused.
    let long = generator.random.chance(5);
    generator.choose_trouble();
    if long {
        generator.no_trouble();
    }
    generator.line_limit();
    let mut seg = generator.segment(1e-5);
    for k in [0, 1, 3, 4] {
        seg[k] = seg[k].clamp(-1e6, 1e6);
    }
    for _ in 0..if long { LONG } else { 40 } {
        let (tolerance, limit) = (generator.tolerance(), generator.line_limit());
        let mut p = generator.point_beside(&seg, tolerance);
        if long || generator.random.chance(98) {
            p = near(p);
        }
        let case = Case::new(Call::SegSplitAtPoint).numbers(&seg);
        let case = case.number(p.x).number(p.y).number(tolerance);
        let case = case.number(limit).room(6);
        let answer = case.run(library);
        splits.steps += 1;
        if !report.judge(&case, &case.run(&Oracle), &answer) {
            return;
        }
        let refusal = refusal_of(p, tolerance, limit);
        if answer.refusal != refusal {
            report.differ(&format!(
                "{case}: a split of a split is refused {}, and what it passes in {refusal}",
                answer.refusal
            ));
            return;
        }
        if refusal != 0 {
            splits.refused += 1;
            return;
        }
        let words = answer.written(case.call);
        let results: [f64; 6] = std::array::from_fn(|k| f64::from_bits(words[k]));
        if !stay(&results) {
            report.differ(&format!("{case}: a result leaves the half circle"));
            return;
        }
        count(&seg, p, limit, &results, splits);

        // What is a line at every limit stays one, so a long row goes on with the greater bulge.
        let line = !is_arc(results[2], LINE_LIMIT) && !is_arc(results[5], LINE_LIMIT);
        if line && generator.random.chance(70) {
            return;
        }
        let on_first = if long || generator.random.chance(40) {
            results[2].abs() > results[5].abs()
        } else {
            generator.random.chance(50)
        };
        seg = if on_first {
            results
        } else {
            [results[3], results[4], results[5], seg[3], seg[4], seg[5]]
        };
    }
}

/// Counts what a step met.
fn count(seg: &[f64; 6], p: Vector2, limit: f64, results: &[f64; 6], splits: &mut Splits) {
    if !is_arc(seg[2], limit) {
        splits.straightened += u64::from(is_arc(seg[2], LINE_LIMIT));
        return;
    }
    splits.arcs += 1;
    let turns = |bulge: f64| is_arc(bulge, limit) && (bulge < 0.0) != (seg[2] < 0.0);
    if turns(results[2]) || turns(results[5]) {
        splits.turned += 1;
        let (start, end) = (Vector2::new(seg[0], seg[1]), Vector2::new(seg[3], seg[4]));
        let whole = (end - start).length_squared();
        if (p - start).length_squared() < whole || (end - p).length_squared() < whole {
            splits.turned_near += 1;
        }
    }
}
