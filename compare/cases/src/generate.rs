//! Cases from a seed, clustered where the published text and document 01 decide something.

use crate::case::{Call, Case};
use crate::random::Random;
use oracle::record::{RECORD_BYTES, encode};
use oracle::{LINE_LIMIT, PlineVertex, PlineViewData, Vector2, segment, view};

/// The tolerances that the text and document 01 name.
const NAMED_TOLERANCES: [f64; 4] = [1e-8, 1e-5, 1e-3, 1.0];

/// The k-th of n points round the unit circle, by operations that are exact or rounded alike on every machine.
pub fn on_circle(k: usize, n: usize) -> Vector2 {
    let t = (4 * k % n) as f64 / n as f64;
    let (x, y) = ((1.0 - t * t) / (1.0 + t * t), 2.0 * t / (1.0 + t * t));
    match 4 * k / n {
        0 => Vector2::new(x, y),
        1 => Vector2::new(-y, x),
        2 => Vector2::new(-x, -y),
        _ => Vector2::new(y, -x),
    }
}

/// A NaN that was worked out has its sign from the processor; this one is the same on all.
fn same_nan(x: f64) -> f64 {
    if x.is_nan() { f64::NAN } else { x }
}

pub struct Generator {
    pub random: Random,
    /// In how many of a hundred places the case at hand is damaged.
    trouble: usize,
    /// The line limit at which its bulges gather: its own where that is in range, else the default.
    limit: f64,
    /// Whether long outlines are wanted too.
    long: bool,
    /// Outlines at the vertex limit and at the one before it, 1,024, made once.
    long_outlines: Vec<Vec<f64>>,
}

impl Generator {
    pub fn new(seed: u64) -> Self {
        let mut generator = Self::small(seed);
        generator.long_outlines = [1024, 1025, 1999, 2000, 2000, 2001]
            .map(|count| generator.outline_of(count))
            .into();
        generator.long = true;
        generator
    }

    /// Short outlines only.
    pub fn small(seed: u64) -> Self {
        Generator {
            random: Random::new(seed),
            trouble: 0,
            limit: LINE_LIMIT,
            long: false,
            long_outlines: Vec::new(),
        }
    }

    /// Most cases have nothing wrong, some a little, few much.
    pub fn choose_trouble(&mut self) {
        self.trouble = self.random.pick(&[0, 0, 0, 0, 0, 0, 4, 12, 40]);
    }

    /// The case at hand is not damaged.
    pub fn no_trouble(&mut self) {
        self.trouble = 0;
    }

    fn troubled(&mut self) -> bool {
        self.random.chance(self.trouble)
    }

    // Numbers.

    /// A coordinate in range.
    fn coordinate(&mut self) -> f64 {
        let r = &mut self.random;
        match r.below(16) {
            0..=6 => (r.below(33) as f64 - 16.0) / 4.0,
            7..=9 => r.between(-10.0, 10.0),
            10 => r.between(-1000.0, 1000.0),
            11 => r.between(-1e6, 1e6),
            12 => {
                let x = r.pick(&[1e6, 1e6f64.next_down(), 999_999.0]);
                r.signed(x)
            }
            13 => {
                let tiny = f64::from_bits(1);
                let x = r.pick(&[0.0, tiny, 3.0 * tiny, f64::MIN_POSITIVE, 1e-300]);
                r.signed(x)
            }
            14 => {
                let x = r.pick(&NAMED_TOLERANCES);
                let x = r.ulp(x);
                r.signed(x)
            }
            _ => {
                let x = r.magnitude(-40, 20).min(1e6);
                r.signed(x)
            }
        }
    }

    /// A bulge in range.
    fn bulge(&mut self) -> f64 {
        let r = &mut self.random;
        if self.limit != LINE_LIMIT && r.chance(40) {
            // At the limit, or an arc at the default limit and a line at this one.
            let below = (self.limit * r.magnitude(-8, 0)).max(LINE_LIMIT);
            let x = r.ulp(self.limit);
            let x = r.pick(&[x, below]);
            return r.signed(x);
        }
        let x = match r.below(12) {
            0..=2 => 0.0,
            3..=5 => r.between(0.0, 1.0),
            6 => r.pick(&[1.0, 1f64.next_down()]),
            7 => r.ulp(LINE_LIMIT),
            8 | 9 => {
                // Two of them a quarter and a sixth of a circle.
                r.pick(&[0.5, 0.25, 2f64.sqrt() - 1.0, 2.0 - 3f64.sqrt(), 1.0])
            }
            10 => r.magnitude(-40, 0),
            _ => r.pick(&[f64::from_bits(1), f64::MIN_POSITIVE, 1e-9, 1e-7, 1e-5]),
        };
        r.signed(x)
    }

    /// A tolerance; out of range where there is trouble.
    pub fn tolerance(&mut self) -> f64 {
        if self.troubled() {
            let r = &mut self.random;
            return r.pick(&[
                1e-8f64.next_down(),
                1f64.next_up(),
                0.0,
                -0.0,
                -1e-5,
                1e-9,
                2.0,
                f64::NAN,
                f64::INFINITY,
                f64::NEG_INFINITY,
                f64::from_bits(1),
            ]);
        }
        let r = &mut self.random;
        match r.below(4) {
            0 => r.pick(&NAMED_TOLERANCES),
            1 => r.pick(&[1e-8f64.next_up(), 1f64.next_down(), 0.5, 0.25]),
            2 => r.pick(&[1e-8, 1.0]),
            _ => r.magnitude(-27, 0).max(1e-8),
        }
    }

    /// A line limit, the default one as often as not; out of range where there is trouble. The bulges that follow gather
    /// at it.
    pub fn line_limit(&mut self) -> f64 {
        self.limit = LINE_LIMIT;
        if self.troubled() {
            return self.random.pick(&[
                1e-8f64.next_down(),
                1e-3f64.next_up(),
                0.0,
                -0.0,
                -1e-5,
                1e-9,
                2e-3,
                1.0,
                f64::NAN,
                f64::INFINITY,
                f64::NEG_INFINITY,
                f64::from_bits(1),
            ]);
        }
        let r = &mut self.random;
        self.limit = match r.below(4) {
            0 | 1 => LINE_LIMIT,
            2 => r.pick(&[
                1e-8f64.next_up(),
                1e-7,
                1e-6,
                1e-5,
                1e-4,
                1e-3f64.next_down(),
                1e-3,
            ]),
            _ => r.magnitude(-27, -9).clamp(1e-8, 1e-3),
        };
        self.limit
    }

    /// A number that is out of the range up to `limit`, or just inside it.
    fn beyond(&mut self, limit: f64) -> f64 {
        let r = &mut self.random;
        match r.below(8) {
            0 => f64::NAN,
            1 => f64::from_bits(0xfff0_0000_0000_0001 | r.bits() >> 12),
            2 => f64::INFINITY,
            3 => f64::NEG_INFINITY,
            4 => r.signed(limit.next_up()),
            5 => r.signed(limit),
            6 => {
                let x = r.pick(&[f64::MAX, 1e300, 2.0 * limit]);
                r.signed(x)
            }
            _ => f64::from_bits(r.bits()),
        }
    }

    /// Spoils one of some vertices' numbers.
    fn spoil_number(&mut self, numbers: &mut [f64]) {
        if numbers.is_empty() {
            return;
        }
        let place = self.random.below(numbers.len());
        numbers[place] = self.beyond(if place % 3 == 2 { 1.0 } else { 1e6 });
    }

    /// Some vertices, with a wrong number or a wrong length where there is trouble.
    fn maybe_spoilt(&mut self, mut numbers: Vec<f64>) -> Vec<f64> {
        if self.troubled() {
            self.spoil_number(&mut numbers);
        }
        if self.troubled() {
            match self.random.below(5) {
                0 => numbers.push(0.0),
                1 => numbers.extend([0.0, 1.0]),
                2 => numbers.truncate(numbers.len().saturating_sub(1)),
                3 => numbers.truncate(numbers.len().saturating_sub(2)),
                _ => numbers.truncate(self.random.below(numbers.len() + 1)),
            }
        }
        numbers
    }

    fn maybe_beyond(&mut self, x: f64) -> f64 {
        if self.troubled() { self.beyond(1e6) } else { x }
    }

    /// The length of an answer buffer that needs `places`: mostly enough.
    fn room(&mut self, places: usize) -> usize {
        match self.random.below(20) {
            0 => places - 1,
            1 => self.random.below(places),
            2 => places + 1,
            3 => places + 2 + self.random.below(5),
            _ => places,
        }
    }

    /// An amount at a tolerance's edge, with either sign.
    fn edge(&mut self, tolerance: f64) -> f64 {
        let r = &mut self.random;
        let edges = [tolerance, 1e-8, 1e-5, 1e-3];
        let x = r.pick(&edges);
        let x = r.ulp(x);
        r.signed(x)
    }

    /// Moves a point a little, or not at all.
    fn nudge(&mut self, p: Vector2, tolerance: f64) -> Vector2 {
        let mut moved = p;
        match self.random.below(6) {
            0 | 1 => {}
            2 => moved.x += self.edge(tolerance),
            3 => moved.y += self.edge(tolerance),
            4 => {
                moved.x = self.random.ulp(moved.x);
                moved.y = self.random.ulp(moved.y);
            }
            _ => {
                let size = self.random.magnitude(-34, 0);
                moved.x += self.random.between(-size, size);
                moved.y += self.random.between(-size, size);
            }
        }
        moved
    }

    // Segments and points beside them.

    /// A segment whose numbers are in range, as a rule.
    pub fn segment(&mut self, tolerance: f64) -> [f64; 6] {
        let (x, y, b) = (self.coordinate(), self.coordinate(), self.bulge());
        let last = self.bulge();
        match self.random.below(13) {
            0..=3 => [x, y, b, self.coordinate(), self.coordinate(), last],
            4 => [x, y, b, x, self.coordinate(), last],
            5 => [x, y, b, self.coordinate(), y, last],
            6 => [x, y, b, x, y, last],
            7 => {
                let p = self.nudge(Vector2::new(x, y), tolerance);
                [x, y, b, p.x, p.y, last]
            }
            8 => {
                // Ends apart by exactly a tolerance, or an ulp more or less.
                let (dx, dy) = (self.edge(tolerance), self.edge(tolerance));
                [0.0, 0.0, b, dx, self.random.pick(&[0.0, dx, dy]), last]
            }
            9 | 10 => {
                // Half circles about the origin, and lines and arcs from it, along the axes.
                let r = self.random.pick(&[0.25, 0.5, 1.0, 2.0, 4.0]);
                let r = self.random.signed(r);
                let from = self.random.pick(&[-r, 0.0]);
                let b = self.random.pick(&[1.0, -1.0, 0.0, b]);
                if self.random.chance(50) {
                    [from, 0.0, b, r, 0.0, last]
                } else {
                    [0.0, from, b, 0.0, r, last]
                }
            }
            11 => {
                // One end straight right, left, above or below the centre, exactly; the box then rests on that end.
                let b = self.random.pick(&[0.5, 0.25, 0.75, 0.125]);
                let b = self.random.signed(b);
                let size = self.random.magnitude(-3, 9);
                let size = f64::from_bits(size.to_bits() & !0xff);
                let long = self.random.signed(2.0 * b * size);
                let short = self.random.signed((b * b - 1.0) * size);
                let (dx, dy) = self.random.pick(&[(long, short), (short, long)]);
                let (x, y) = self.random.pick(&[(0.0, 0.0), (0.25, 0.0), (3.0, 0.5)]);
                [x, y, b, x + dx, y + dy, last]
            }
            _ => {
                let size = self.random.magnitude(-30, 7);
                let dx = self.random.between(-size, size);
                let dy = self.random.between(-size, size);
                [x, y, b, x + dx, y + dy, last]
            }
        }
    }

    /// A point beside a segment: at its ends, centre and middle, on it, at equal distance from its ends, on the rays
    /// that bound its sweep, at the two ends of its projection, or anywhere.
    pub fn point_beside(&mut self, seg: &[f64; 6], tolerance: f64) -> Vector2 {
        let start = Vector2::new(seg[0], seg[1]);
        let end = Vector2::new(seg[3], seg[4]);
        let chord = end - start;
        let center = match segment::seg_arc_radius_and_center(seg, LINE_LIMIT) {
            Ok((_, center)) => center,
            Err(_) => start + chord.scale(0.5),
        };
        let part = if self.random.chance(50) {
            self.random.pick(&[0.25, 0.5, 0.75, 2.0, -1.0])
        } else {
            self.random.between(0.0, 1.0)
        };
        let p = match self.random.below(15) {
            0 => start,
            1 => end,
            2 => center,
            3 => segment::seg_midpoint(seg, LINE_LIMIT).unwrap_or(center),
            4 => start + chord.scale(part),
            5 => start + chord.scale(0.5) + chord.perp().scale(part - 0.5),
            6 => center + (start - center).scale(2.0 * part),
            7 => center + (end - center).scale(2.0 * part),
            8 | 9 => {
                // On the arc: a point between the ends, turned out to the radius.
                let along = start + chord.scale(part) - center;
                let radius = (start - center).length();
                center + along.scale(radius / along.length().max(1e-300))
            }
            10 => {
                // The projection at the edge of either end test.
                let length_squared = chord.length_squared().max(1e-300);
                let at = self.random.ulp(1e-8) / length_squared;
                let at = if self.random.chance(50) { at } else { 1.0 - at };
                let away = self.random.pick(&[0.0, 1.0, part]);
                start + chord.scale(at) + chord.perp().scale(away)
            }
            11 | 12 => {
                // At the edge of the sweep test: off an end's ray by the tolerance.
                let radius = self.random.pick(&[start, end]) - center;
                let off = self.random.ulp(tolerance) / radius.length_squared().max(1e-300);
                let off = self.random.signed(off);
                center + radius.scale(4.0 * part) + radius.perp().scale(off)
            }
            _ => Vector2::new(self.coordinate(), self.coordinate()),
        };
        let p = self.nudge(p, tolerance);
        Vector2::new(same_nan(p.x), same_nan(p.y))
    }

    /// A distance, often just that of the point to a place of the segment.
    pub fn distance(&mut self, seg: &[f64; 6], p: Vector2) -> f64 {
        let start = Vector2::new(seg[0], seg[1]);
        let end = Vector2::new(seg[3], seg[4]);
        let (radius, center) = segment::seg_arc_radius_and_center(seg, LINE_LIMIT)
            .unwrap_or((1.0, start + end.scale(0.5)));
        let closest = segment::seg_closest_point(seg, p, 1e-5, LINE_LIMIT).unwrap_or(end);
        let x = match self.random.below(8) {
            0 => 0.0,
            1 => (p - start).length(),
            2 => (p - end).length(),
            3 => (p - closest).length(),
            4 => radius,
            5 => ((p - center).length() - radius).abs(),
            _ => self.coordinate(),
        };
        let x = if self.random.chance(30) {
            self.random.ulp(x)
        } else {
            x
        };
        self.random.signed(x)
    }

    // Outlines and records.

    /// An outline of `count` vertices in range.
    fn outline_of(&mut self, count: usize) -> Vec<f64> {
        let kind = self.random.below(5);
        let (side_x, side_y) = (self.random.signed(1.0), self.random.signed(1.0));
        let mut numbers: Vec<f64> = Vec::with_capacity(3 * count);
        let (mut x, mut y) = (0.0, 0.0);
        for k in 0..count {
            let b = self.bulge();
            if k > 0 && self.random.chance(6) {
                // On top of the vertex before, or nearly.
                let p = Vector2::new(numbers[3 * k - 3], numbers[3 * k - 2]);
                let p = self.nudge(p, 1e-5);
                numbers.extend([p.x.clamp(-1e6, 1e6), p.y.clamp(-1e6, 1e6), b]);
                continue;
            }
            match kind {
                0 => (x, y) = (self.coordinate(), self.coordinate()),
                1 => {
                    // A walk along the axes.
                    let step = self.random.pick(&[1.0, 2.0, 4.0, 0.5, -1.0, -2.0]);
                    if k > 0 && k % 2 == 1 {
                        x += step;
                    } else if k > 0 {
                        y += step;
                    }
                }
                2 => {
                    let p = on_circle(k, count);
                    (x, y) = (100.0 * p.x, 100.0 * p.y);
                }
                3 => {
                    // To one side of both zeros.
                    x = self.random.pick(&[0.0, -0.0, side_x]);
                    y = self.random.pick(&[0.0, -0.0, side_y]);
                }
                _ => {
                    x += self.random.between(-5.0, 10.0);
                    y += self.random.between(-5.0, 5.0);
                }
            }
            let line = (kind == 1 || kind == 3) && k % 3 != 2;
            numbers.extend([x, y, if line { 0.0 } else { b }]);
        }
        numbers
    }

    /// An outline, in range as a rule, with its vertex count.
    pub fn outline(&mut self) -> Vec<f64> {
        if self.long && self.random.below(250) == 0 {
            let which = self.random.below(self.long_outlines.len());
            let mut numbers = self.long_outlines[which].clone();
            if self.random.chance(10) {
                self.spoil_number(&mut numbers);
            }
            return numbers;
        }
        let r = &mut self.random;
        let count = match r.below(40) {
            0 => r.below(2),
            1..=10 => 2,
            11..=18 => 3,
            19..=26 => 4,
            27..=36 => 5 + r.below(4),
            _ if self.long => 9 + r.below(32),
            _ => 9 + r.below(4),
        };
        self.outline_of(count)
    }

    /// The segment of a whole outline that starts at a vertex.
    fn segment_at(outline: &[f64], index: usize) -> [f64; 6] {
        let next = (index + 1) % (outline.len() / 3);
        let (v1, v2) = (&outline[3 * index..][..3], &outline[3 * next..][..3]);
        [v1[0], v1[1], v1[2], v2[0], v2[1], v2[2]]
    }

    /// A record made as the text makes them, from an outline of at least two vertices. At the case's own limit or at the
    /// default one: what lies on an arc may be off the line that the limit makes of it, and what lies on the line off the arc.
    fn made_record(&mut self, outline: &[f64]) -> Option<PlineViewData> {
        let limit = if self.limit != LINE_LIMIT && self.random.chance(50) {
            self.limit
        } else {
            LINE_LIMIT
        };
        let count = outline.len() / 3;
        let eps = self.random.pick(&[1e-5, 1e-5, 1e-8, 1e-3]);
        let anywhere = self.random.below(count);
        let start = self.random.pick(&[0, count - 1, anywhere, anywhere]);
        let seg = Self::segment_at(outline, start);
        let p = self.point_on(&seg, limit);
        if self.random.chance(25) {
            return view::from_new_start(outline, true, p, start as u64, eps, limit).ok();
        }

        let split = segment::seg_split_at_point(&seg, p, eps, limit).ok()?;
        let from = split.split_vertex;
        if self.random.chance(30) {
            // On one segment: the rest of it is split once more.
            let rest = [from.x, from.y, from.bulge, seg[3], seg[4], seg[5]];
            let end = self.point_on(&rest, limit);
            let again = segment::seg_split_at_point(&rest, end, eps, limit).ok()?;
            return Some(PlineViewData {
                start_index: start,
                end_index_offset: 0,
                updated_start: again.updated_start,
                updated_end_bulge: again.updated_start.bulge,
                end_point: end,
                inverted_direction: false,
            });
        }

        let traverse = 1 + self.random.below(count);
        let traverse = self
            .random
            .pick(&[traverse, traverse, 1, count - 1, count, count + 1]);
        let last = (start + traverse) % count;
        let end = self.point_on(&Self::segment_at(outline, last), limit);
        let vertex = [from.x, from.y, from.bulge];
        let (start, last, traverse) = (start as u64, last as u64, traverse as u64);
        view::create(outline, start, end, last, &vertex, traverse, eps, limit).ok()
    }

    /// A point on a segment, with no nudge.
    fn point_on(&mut self, seg: &[f64; 6], limit: f64) -> Vector2 {
        let start = Vector2::new(seg[0], seg[1]);
        let chord = Vector2::new(seg[3], seg[4]) - start;
        let part = if self.random.chance(50) {
            self.random.pick(&[0.0, 0.25, 0.5, 0.75, 1.0])
        } else {
            self.random.between(0.0, 1.0)
        };
        let p = start + chord.scale(part);
        // Off the chord, to the arc's side, so that the closest point lies on the arc.
        let p = p + chord.perp().scale(-0.125 * seg[2]);
        segment::seg_closest_point(seg, p, 1e-8, limit).unwrap_or(start)
    }

    /// A record with anything in it.
    fn any_record(&mut self, count: usize) -> PlineViewData {
        PlineViewData {
            start_index: self.random.below(count + 1),
            end_index_offset: self.random.below(count + 2),
            updated_start: PlineVertex::new(self.coordinate(), self.coordinate(), self.bulge()),
            updated_end_bulge: self.bulge(),
            end_point: Vector2::new(self.coordinate(), self.coordinate()),
            inverted_direction: false,
        }
    }

    /// A record for an outline: mostly one that the text made, trimmed, turned round, and moved to some edge.
    pub fn record(&mut self, outline: &[f64]) -> PlineViewData {
        let count = outline.len() / 3;
        let made = if count >= 2 && self.random.chance(85) {
            self.made_record(outline)
        } else {
            None
        };
        let mut record = match made {
            Some(record) => record,
            None => self.any_record(count),
        };

        if self.random.chance(30) {
            let last = record.end_index_offset as u64 + 1;
            let i = self.random.bits() % last;
            let j = i + 1 + self.random.bits() % (last - i);
            record = view::trim(outline, &record, i, j).unwrap_or(record);
        }
        record.inverted_direction = self.random.chance(50);

        match self.random.below(12) {
            0 => {
                let p = self.nudge(record.updated_start.pos(), 1e-3);
                record.updated_start = PlineVertex::from_vector2(p, record.updated_start.bulge);
            }
            1 => record.end_point = self.nudge(record.end_point, 1e-3),
            2 if count > 0 => {
                // At the vertex that the end may not sit on.
                let index = (record.start_index + record.end_index_offset) % count;
                let p = Vector2::new(outline[3 * index], outline[3 * index + 1]);
                record.end_point = self.nudge(p, 1e-5);
            }
            3 => {
                let edge = self.edge(1e-5);
                record.updated_end_bulge = (record.updated_start.bulge + edge).clamp(-1.0, 1.0);
            }
            4 if record.updated_start.bulge == 0.0 => {
                record.updated_end_bulge = -record.updated_start.bulge;
            }
            5 if self.random.chance(50) => {
                let far = u32::MAX as usize;
                record.end_index_offset =
                    self.random
                        .pick(&[0, count.saturating_sub(1), count, count + 1, far]);
            }
            6 if self.random.chance(50) => {
                let far = u32::MAX as usize;
                record.start_index =
                    self.random
                        .pick(&[0, count.saturating_sub(1), count, count + 1, far]);
            }
            _ => {}
        }
        record
    }

    /// A cut number: its ends, and where it gets a digit or a byte more.
    pub fn cut_number(&mut self) -> u32 {
        let r = &mut self.random;
        let anything = r.bits() as u32 >> r.below(32);
        r.pick(&[
            0,
            1,
            9,
            10,
            255,
            256,
            999_999_999,
            1_000_000_000,
            1 << 31,
            u32::MAX - 1,
            u32::MAX,
            anything,
            anything,
            anything,
        ])
    }

    /// A record's bytes, damaged where there is trouble.
    fn record_bytes(&mut self, record: &PlineViewData) -> Vec<u8> {
        let mut bytes = encode(record, self.cut_number()).to_vec();
        if self.troubled() {
            let place = self.random.below(6);
            let limit = if place == 2 || place == 3 { 1.0 } else { 1e6 };
            let number = self.beyond(limit);
            bytes[8 + 8 * place..][..8].copy_from_slice(&number.to_le_bytes());
        }
        if self.troubled() {
            // The direction.
            let place = 56 + self.random.below(4);
            bytes[place] = self.random.pick(&[0, 1, 2, 3, 128, 255]);
        }
        if self.troubled() {
            match self.random.below(4) {
                0 => bytes.truncate(RECORD_BYTES - 1),
                1 => bytes.push(0),
                2 => bytes.clear(),
                _ => bytes.resize(2 * RECORD_BYTES, 0),
            }
        }
        bytes
    }

    // Roots.

    /// A number to take the root of.
    fn radicand(&mut self) -> f64 {
        let r = &mut self.random;
        match r.below(10) {
            0 => f64::from_bits(r.bits()),
            1 => f64::from_bits(r.bits() >> 12),
            2 => {
                let places = 12 + r.below(52);
                f64::from_bits(r.bits() >> places)
            }
            3 => {
                let places = 32 + r.below(32);
                let root = (r.bits() >> places) as f64;
                let square = root * root;
                r.ulp(square)
            }
            4 | 5 => {
                // Near the square of a number midway between two floats: the hardest to round.
                let midway = u128::from(r.bits() >> 11 | 1 << 52) * 2 + 1;
                let square = (midway * midway) as f64;
                let scaled = square * 2f64.powi(2 * (r.below(1000) as i32 - 530));
                r.ulp(scaled)
            }
            6 => r.pick(&[0.0, -0.0, f64::MAX, f64::MIN_POSITIVE, 1.0, 2.0, 4.0]),
            7 if r.chance(20) => {
                r.pick(&[f64::NAN, -f64::NAN, f64::INFINITY, f64::NEG_INFINITY, -1.0])
            }
            7 => -f64::from_bits(r.bits() >> 1),
            _ => f64::from_bits(r.bits() >> 1),
        }
    }

    // Cases.

    /// A case for any call.
    pub fn case(&mut self) -> Case {
        let call = self.random.pick(&Call::ALL);
        self.case_for(call)
    }

    /// A case for this call.
    pub fn case_for(&mut self, call: Call) -> Case {
        self.choose_trouble();
        self.limit = LINE_LIMIT;
        match call {
            Call::Sqrt => {
                let case = Case::new(call).number(self.radicand());
                case.room(self.room(1))
            }
            Call::Vertex => {
                let numbers = vec![self.coordinate(), self.coordinate(), self.bulge()];
                let numbers = self.maybe_spoilt(numbers);
                Case::new(call).numbers(&numbers).room(self.room(3))
            }
            Call::SegArcRadiusAndCenter => self.segment_case(call, 3),
            Call::SegBoundingBox => self.segment_case(call, 4),
            Call::SegMidpoint => self.segment_case(call, 2),
            Call::SegSplitAtPoint => self.point_case(call, 6),
            Call::SegTangentVector | Call::SegClosestPoint => self.point_case(call, 2),
            Call::SegDistanceIsGreaterThan => self.point_case(call, 1),
            Call::ViewCreate => self.create_case(),
            Call::ViewFromNewStart => self.new_start_case(),
            _ => self.view_case(call),
        }
    }

    fn segment_case(&mut self, call: Call, places: usize) -> Case {
        let limit = self.line_limit();
        let mut seg = self.segment(self.limit).to_vec();
        for x in seg.iter_mut().filter(|x| **x == 0.0) {
            // Which of two equal numbers a box has shows only in the signs of zeros.
            *x = self.random.signed(0.0);
        }
        let seg = self.maybe_spoilt(seg);
        let case = Case::new(call).numbers(&seg).number(limit);
        case.room(self.room(places))
    }

    fn point_case(&mut self, call: Call, places: usize) -> Case {
        let (limit, tolerance) = (self.line_limit(), self.tolerance());
        let seg = self.segment(tolerance);
        let p = self.point_beside(&seg, tolerance);
        let distance = self.distance(&seg, p);
        let spoilt = self.maybe_spoilt(seg.to_vec());
        let mut case = Case::new(call)
            .numbers(&spoilt)
            .number(self.maybe_beyond(p.x))
            .number(self.maybe_beyond(p.y));
        if call == Call::SegDistanceIsGreaterThan {
            case = case.number(self.maybe_beyond(distance));
        }
        if call != Call::SegTangentVector {
            case = case.number(tolerance);
        }
        case.number(limit).room(self.room(places))
    }

    /// An index, sometimes at or past the count.
    fn index(&mut self, count: usize) -> u64 {
        let count = count as u64;
        let r = &mut self.random;
        match r.below(10) {
            0 => count.saturating_sub(1),
            1 => 0,
            2 if r.chance(30) => r.pick(&[count, count + 1, u64::MAX, 1 << 32]),
            _ => r.bits() % count.max(1),
        }
    }

    fn create_case(&mut self) -> Case {
        let limit = self.line_limit();
        let outline = self.outline();
        let count = outline.len() / 3;
        let tolerance = self.tolerance();
        let start = self.index(count);
        let intersect = self.index(count);
        let (mut vertex, mut end) = (
            vec![self.coordinate(), self.coordinate(), self.bulge()],
            Vector2::new(self.coordinate(), self.coordinate()),
        );
        if start < count as u64 && intersect < count as u64 && self.random.chance(90) {
            let seg = Self::segment_at(&outline, start as usize);
            let p = self.point_beside(&seg, tolerance);
            vertex = vec![p.x, p.y, self.random.pick(&[seg[2], vertex[2]])];
            let seg = Self::segment_at(&outline, intersect as usize);
            end = self.point_beside(&seg, tolerance);
        }
        let traverse = match self.random.below(10) {
            0 => self.random.pick(&[0, 0, 1, u64::MAX]),
            1 => count as u64,
            2 => count as u64 + 1,
            3 => count as u64 + 2,
            _ => 1 + self.random.bits() % (count as u64 + 1),
        };
        let outline = self.maybe_spoilt(outline);
        let vertex = self.maybe_spoilt(vertex);
        Case::new(Call::ViewCreate)
            .numbers(&outline)
            .whole(start)
            .number(self.maybe_beyond(end.x))
            .number(self.maybe_beyond(end.y))
            .whole(intersect)
            .numbers(&vertex)
            .whole(traverse)
            .number(tolerance)
            .number(limit)
            .room(self.room(RECORD_BYTES))
    }

    fn new_start_case(&mut self) -> Case {
        let limit = self.line_limit();
        let outline = self.outline();
        let count = outline.len() / 3;
        let tolerance = self.tolerance();
        let start = self.index(count);
        let closed = self.random.pick(&[1, 1, 1, 1, 1, 0, 2, 255]);
        let mut p = Vector2::new(self.coordinate(), self.coordinate());
        if start < count as u64 && self.random.chance(90) {
            let seg = Self::segment_at(&outline, start as usize);
            p = self.point_beside(&seg, tolerance);
        }
        let outline = self.maybe_spoilt(outline);
        Case::new(Call::ViewFromNewStart)
            .numbers(&outline)
            .whole(closed)
            .number(self.maybe_beyond(p.x))
            .number(self.maybe_beyond(p.y))
            .whole(start)
            .number(tolerance)
            .number(limit)
            .room(self.room(RECORD_BYTES))
    }

    fn view_case(&mut self, call: Call) -> Case {
        let limit = if call.takes_limit() {
            self.line_limit()
        } else {
            LINE_LIMIT
        };
        let outline = self.outline();
        let record = self.record(&outline);
        let bytes = self.record_bytes(&record);
        let mut outline = self.maybe_spoilt(outline);
        if call == Call::ViewGet && self.random.chance(40) {
            // A lookup sees only what it reads.
            self.spoil_number(&mut outline);
        }
        let offset = record.end_index_offset;
        // An offset past the outline is refused before its list is written, so its room need not be that long.
        let listed = 3 * (offset.min(outline.len()) + 2);
        let case = Case::new(call).numbers(&outline);
        match call {
            Call::ViewValidate => {
                let case = case.bytes(&bytes).number(limit).room(self.room(4));
                case.room(self.room(5))
            }
            Call::ViewMark => {
                let closed = self.random.pick(&[0, 1, 2, 255]);
                let case = case.whole(closed).bytes(&bytes).number(limit);
                case.room(self.room(1))
            }
            Call::ViewCount => case.bytes(&bytes).room(self.room(1)),
            Call::ViewGet => {
                let position = self.position(offset);
                case.bytes(&bytes).whole(position).room(self.room(3))
            }
            Call::ViewList => {
                let case = case.bytes(&bytes).room(self.room(listed));
                case.room(self.room(1))
            }
            Call::ViewReverse => case.bytes(&bytes).room(self.room(RECORD_BYTES)),
            Call::ViewTrim => {
                let (mut i, mut j) = (self.position(offset), self.position(offset));
                if i > j && self.random.chance(80) {
                    (i, j) = (j, i);
                }
                let case = case.bytes(&bytes).whole(i).whole(j);
                case.room(self.room(RECORD_BYTES))
            }
            _ => unreachable!("no call on an outline and a record"),
        }
    }

    /// A position in a view, sometimes past it.
    pub fn position(&mut self, offset: usize) -> u64 {
        let offset = offset as u64;
        let r = &mut self.random;
        match r.below(12) {
            0 => 0,
            1 => 1,
            2 => offset.saturating_sub(1),
            3 => offset,
            4 => offset + 1,
            5 => offset + 2,
            6 if r.chance(20) => r.pick(&[u64::MAX, u64::MAX - 1, 1 << 32, offset + 3]),
            _ => r.bits() % (offset + 2),
        }
    }
}
