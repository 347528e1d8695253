//! The comparison finds faults: the oracle is spoilt in one place at a time, and each time the comparison must say so.

use cases::case::Call;
use cases::compare::compare_calls;
use cases::former::former_box_line;
use cases::report::Report;
use cases::sheets::compare_sheets;
use cases::splits::compare_splits;
use oracle::sheet::sheet_text;
use oracle::{LINE_LIMIT, Library, Oracle, Vector2, record, view};

#[derive(Debug, Clone, Copy, PartialEq)]
enum Fault {
    None,
    // Document 01's easy slips.
    OffsetEqualToTheCountRefused,
    BulgesNegatedAtTheirOldVertex,
    MinusZeroAsLastBulge,
    FinalVertexTestedWithTheOtherTolerance,
    // Ranges, order of refusals, buffers.
    ToleranceEndsRefused,
    NumberRefusedBeforeLength,
    EndBulgeNotChecked,
    RefusalWrites,
    WritesPastTheList,
    WritesPastTheRoom,
    LookupChecksAllVertices,
    OnlyOneCountsAsClosed,
    IndexCheckedBeforeTraverse,
    // One flipped comparison, one lost sign, one ulp.
    LimitItselfIsALine,
    TieToTheFirstEnd,
    AtTheDistanceIsGreater,
    ZeroLosesItsSign,
    SubnormalRootsAnUlpOff,
    TiedRootsRoundedUp,
    StartNotWrapped,
    StartEqualToTheCountNotWrapped,
    WrappedStartOneTooHigh,
    EqualNumbersNotExchanged,
    SplitAtTheEndOnThePoint,
    VerdictSixValuesExchanged,
    // The gap of an open outline.
    CutAcrossTheGap,
    CutAlongTheClosingSegment,
    ClosedOutlinesHeldToo,
    OnlyForwardViewsHeld,
    ClosedByTwoTakenForOpen,
    // The vertex limit.
    OldVertexLimit,
    OneVertexOverTheLimit,
    // The cut number.
    NumberedRecordRefused,
    ReversalDropsTheNumber,
    TrimDropsTheNumber,
    TrimKeepsHalfTheNumber,
    CreateKeepsAnOldNumber,
    NewStartKeepsAnOldNumber,
    // The roots of a verdict.
    OnlyOneRootCounted,
    RootOfAnUnplacedStartNotCounted,
    LineTakesARoot,
    PointNearAnEndTakesARoot,
    NoRootsReported,
    ThreeWordsAreRoom,
    // The line limit.
    LimitIgnored(Call),
    LimitInALinesEndTest,
    LimitInALinesEndTestOfDistance,
    LimitInTheTestOfAnArcsEnds,
    LimitInTheBoxOfAnArcsEnds,
    GreatestLimitRefused,
    LeastLimitRefused,
    NanLimitAccepted,
    LimitRefusedBeforeNumber,
    LimitRefusedBeforePoint,
    LimitRefusedAfterNoArc,
    LimitRefusedAfterOpen,
    LimitRefusedAfterTraverse,
    LimitRefusedAfterIndex,
    LimitRefusedAfterVerdictOne,
    LimitRefusedAfterVerdictTwo,
    LimitRefusedAfterIndexOfARecord,
    LimitRefusedAfterRoom,
    LimitRefusedBeforeDirection,
    RootsOfTheDefaultLimit,
    // Rows of splits.
    SplitAnUlpOverTheHalfCircle,
    SplitHalfCircleRefused,
    SplitTurnedBack,
}

struct Spoilt(Fault);

impl Spoilt {
    fn is(&self, fault: Fault) -> bool {
        self.0 == fault
    }

    /// The limit that the call is judged at in place of its own.
    fn limit(&self, call: Call, limit: f64) -> f64 {
        match self.0 {
            Fault::LimitIgnored(ignored) if ignored == call && in_range(limit) => LINE_LIMIT,
            Fault::GreatestLimitRefused if limit == 1e-3 => f64::NAN,
            Fault::LeastLimitRefused if limit == 1e-8 => f64::NAN,
            Fault::NanLimitAccepted if limit.is_nan() => LINE_LIMIT,
            _ => limit,
        }
    }

    /// Whether this is the fault, and the limit is out of range.
    fn misplaces(&self, fault: Fault, limit: f64) -> bool {
        self.is(fault) && !in_range(limit)
    }

    /// The roots that are reported for a verdict that took so many.
    fn roots(&self, outline: &[f64], bytes: &[u8], verdict: u64, roots: u64) -> u64 {
        let record = record::decode(bytes).unwrap();
        let vertex = |k: usize| &outline[3 * (k % (outline.len() / 3))..][..3];
        let start = record.start_index;
        match self.0 {
            Fault::OnlyOneRootCounted => roots.min(1),
            Fault::RootOfAnUnplacedStartNotCounted if verdict == 3 => 0,
            Fault::LineTakesARoot if verdict > 2 && vertex(start)[2] == 0.0 => roots.max(1),
            Fault::PointNearAnEndTakesARoot if verdict > 2 => {
                let p = record.updated_start.pos();
                let near = |v: &[f64]| p.fuzzy_eq_eps(Vector2::new(v[0], v[1]), 1e-3);
                roots.max(u64::from(near(vertex(start)) || near(vertex(start + 1))))
            }
            Fault::NoRootsReported => 0,
            _ => roots,
        }
    }

    /// The list of a record that lists, if it is inverted.
    fn inverted_list(outline: &[f64], bytes: &[u8]) -> Option<usize> {
        let record = record::decode(bytes).ok()?;
        record.inverted_direction.then_some(())?;
        Some(view::list(outline, &record).ok()?.len())
    }
}

fn in_range(limit: f64) -> bool {
    (1e-8..=1e-3).contains(&limit)
}

/// Whether a segment's ends are one point at this limit.
fn ends_meet(seg: &[f64], limit: f64) -> bool {
    Vector2::new(seg[0], seg[1]).fuzzy_eq_eps(Vector2::new(seg[3], seg[4]), limit)
}

/// The end of a line that is closest where the end tests have the line limit.
fn end_by_limit(seg: &[f64], x: f64, y: f64, limit: f64) -> Option<&[f64]> {
    let start = Vector2::new(seg[0], seg[1]);
    let chord = Vector2::new(seg[3], seg[4]) - start;
    let projection = (Vector2::new(x, y) - start).dot(chord);
    if seg[2].abs() >= limit {
        None
    } else if projection < limit {
        Some(&seg[..2])
    } else if chord.length_squared() < projection + limit {
        Some(&seg[3..5])
    } else {
        None
    }
}

/// Another cut number in a record that was answered.
fn renumber(refusal: u8, out: &mut [u8], number: [u8; 4]) -> u8 {
    if refusal == 0 {
        out[60..64].copy_from_slice(&number);
    }
    refusal
}

/// What stands where a record's cut number goes.
fn old_number(out: &[u8]) -> [u8; 4] {
    let old = out.get(60..64).unwrap_or(&[0; 4]);
    old.try_into().expect("4 bytes")
}

fn zero_sign_lost(numbers: &mut [f64]) {
    for x in numbers {
        if *x == 0.0 {
            *x = 0.0;
        }
    }
}

impl Library for Spoilt {
    fn sqrt(&self, x: f64, out: &mut [f64]) -> u8 {
        let refusal = Oracle.sqrt(x, out);
        if refusal == 0 {
            if self.is(Fault::SubnormalRootsAnUlpOff) && x.is_subnormal() {
                out[0] = out[0].next_up();
            }
            // A root that was rounded down from very near the middle.
            let error = out[0].mul_add(out[0], -x);
            let half = out[0] * (out[0].next_up() - out[0]);
            if self.is(Fault::TiedRootsRoundedUp) && x > 1e-200 && -error > half * (1.0 - 1e-12) {
                out[0] = out[0].next_up();
            }
        }
        refusal
    }

    fn vertex(&self, numbers: &[f64], out: &mut [f64]) -> u8 {
        if self.is(Fault::NumberRefusedBeforeLength) && numbers.iter().any(|x| !x.is_finite()) {
            return 1;
        }
        Oracle.vertex(numbers, out)
    }

    fn seg_arc_radius_and_center(&self, seg: &[f64], line_limit: f64, out: &mut [f64]) -> u8 {
        let line_limit = self.limit(Call::SegArcRadiusAndCenter, line_limit);
        let default = Oracle.seg_arc_radius_and_center(seg, LINE_LIMIT, &mut out.to_vec());
        if self.misplaces(Fault::LimitRefusedAfterNoArc, line_limit) && default == 6 {
            return 6;
        }
        if self.is(Fault::LimitInTheTestOfAnArcsEnds)
            && default == 0
            && in_range(line_limit)
            && ends_meet(seg, line_limit)
        {
            return 6;
        }
        Oracle.seg_arc_radius_and_center(seg, line_limit, out)
    }

    fn seg_split_at_point(
        &self,
        seg: &[f64],
        x: f64,
        y: f64,
        tolerance: f64,
        line_limit: f64,
        out: &mut [f64],
    ) -> u8 {
        let line_limit = self.limit(Call::SegSplitAtPoint, line_limit);
        let half_circle = seg.len() == 6 && seg[2].abs() == 1.0;
        if self.is(Fault::SplitHalfCircleRefused) && half_circle {
            return 1;
        }
        let refusal = Oracle.seg_split_at_point(seg, x, y, tolerance, line_limit, out);
        if refusal != 0 {
            return refusal;
        }
        match self.0 {
            Fault::SplitAtTheEndOnThePoint => (out[3], out[4]) = (x, y),
            Fault::SplitAnUlpOverTheHalfCircle if out[2] == 1.0 => out[2] = out[2].next_up(),
            Fault::SplitTurnedBack => out[5] = out[5].copysign(seg[2]),
            _ => {}
        }
        refusal
    }

    fn seg_tangent_vector(
        &self,
        seg: &[f64],
        x: f64,
        y: f64,
        line_limit: f64,
        out: &mut [f64],
    ) -> u8 {
        let line_limit = self.limit(Call::SegTangentVector, line_limit);
        if self.is(Fault::EndBulgeNotChecked) && seg.len() == 6 {
            let seg = [seg[0], seg[1], seg[2], seg[3], seg[4], 0.0];
            return Oracle.seg_tangent_vector(&seg, x, y, line_limit, out);
        }
        Oracle.seg_tangent_vector(seg, x, y, line_limit, out)
    }

    fn seg_closest_point(
        &self,
        seg: &[f64],
        x: f64,
        y: f64,
        tolerance: f64,
        line_limit: f64,
        out: &mut [f64],
    ) -> u8 {
        let line_limit = self.limit(Call::SegClosestPoint, line_limit);
        if self.is(Fault::ToleranceEndsRefused) && tolerance == 1.0 {
            return 2;
        }
        let refusal = Oracle.seg_closest_point(seg, x, y, tolerance, line_limit, out);
        let sound = oracle::segment::seg_midpoint(seg, LINE_LIMIT).is_ok();
        if self.misplaces(Fault::LimitRefusedBeforePoint, line_limit) && refusal == 1 && sound {
            return 2;
        }
        if refusal == 0
            && self.is(Fault::LimitInALinesEndTest)
            && let Some(end) = end_by_limit(seg, x, y, line_limit)
        {
            out[..2].copy_from_slice(end);
        }
        if refusal == 0 && self.is(Fault::TieToTheFirstEnd) {
            let (v1, v2) = (Vector2::new(seg[0], seg[1]), Vector2::new(seg[3], seg[4]));
            let p = Vector2::new(x, y);
            let tied = (v1 - p).length_squared() == (v2 - p).length_squared();
            if tied && out[..2] == seg[3..5] {
                out[..2].copy_from_slice(&seg[..2]);
            }
        }
        refusal
    }

    fn seg_distance_is_greater_than(
        &self,
        seg: &[f64],
        x: f64,
        y: f64,
        distance: f64,
        tolerance: f64,
        line_limit: f64,
        out: &mut [u8],
    ) -> u8 {
        let limit = self.limit(Call::SegDistanceIsGreaterThan, line_limit);
        let nearer = distance.abs().next_down();
        if self.is(Fault::AtTheDistanceIsGreater) && nearer > 0.0 && distance.abs() <= 1e6 {
            return Oracle.seg_distance_is_greater_than(seg, x, y, nearer, tolerance, limit, out);
        }
        let refusal =
            Oracle.seg_distance_is_greater_than(seg, x, y, distance, tolerance, limit, out);
        if refusal == 0
            && self.is(Fault::LimitInALinesEndTestOfDistance)
            && let Some(end) = end_by_limit(seg, x, y, limit)
        {
            let off = Vector2::new(x - end[0], y - end[1]);
            out[0] = u8::from(off.length_squared() > distance * distance);
        }
        refusal
    }

    fn seg_bounding_box(&self, seg: &[f64], line_limit: f64, out: &mut [f64]) -> u8 {
        let line_limit = self.limit(Call::SegBoundingBox, line_limit);
        let refusal = Oracle.seg_bounding_box(seg, line_limit, out);
        if refusal == 0
            && self.is(Fault::LimitInTheBoxOfAnArcsEnds)
            && seg[2].abs() >= line_limit
            && ends_meet(seg, line_limit)
        {
            out[..4].copy_from_slice(&[seg[0], seg[1], seg[0], seg[1]]);
        }
        if refusal == 0 && self.is(Fault::ZeroLosesItsSign) {
            zero_sign_lost(&mut out[..4]);
        }
        // Only a zero and a minus zero are equal and show it.
        if refusal == 0 && self.is(Fault::EqualNumbersNotExchanged) && out[0] == out[2] {
            out.swap(0, 2);
        }
        refusal
    }

    fn seg_midpoint(&self, seg: &[f64], line_limit: f64, out: &mut [f64]) -> u8 {
        let line_limit = self.limit(Call::SegMidpoint, line_limit);
        if self.is(Fault::LimitItselfIsALine) && seg.len() == 6 && seg[2].abs() == line_limit {
            let seg = [seg[0], seg[1], 0.0, seg[3], seg[4], seg[5]];
            return Oracle.seg_midpoint(&seg, line_limit, out);
        }
        let default = Oracle.seg_midpoint(seg, LINE_LIMIT, &mut out.to_vec());
        if self.misplaces(Fault::LimitRefusedBeforeNumber, line_limit) && default == 1 {
            return 2;
        }
        if self.misplaces(Fault::LimitRefusedAfterRoom, line_limit) && default == 8 {
            return 8;
        }
        let refusal = Oracle.seg_midpoint(seg, line_limit, out);
        if refusal != 0 && self.is(Fault::RefusalWrites) {
            out.fill(0.0);
        }
        refusal
    }

    fn view_create(
        &self,
        outline: &[f64],
        start: u64,
        x: f64,
        y: f64,
        intersect: u64,
        vertex: &[f64],
        traverse: u64,
        tolerance: f64,
        line_limit: f64,
        out: &mut [u8],
    ) -> u8 {
        let line_limit = self.limit(Call::ViewCreate, line_limit);
        let old = old_number(out);
        let create = |line_limit, out: &mut [u8]| {
            Oracle.view_create(
                outline, start, x, y, intersect, vertex, traverse, tolerance, line_limit, out,
            )
        };
        let default = create(LINE_LIMIT, &mut out.to_vec());
        for (fault, late) in [
            (Fault::LimitRefusedAfterTraverse, 5),
            (Fault::LimitRefusedAfterIndex, 4),
        ] {
            if self.misplaces(fault, line_limit) && default == late {
                return late;
            }
        }
        let refusal = create(line_limit, out);
        if self.is(Fault::CreateKeepsAnOldNumber) {
            return renumber(refusal, out, old);
        }
        let count = outline.len() as u64 / 3;
        let bad_index = start >= count || intersect >= count;
        if self.is(Fault::IndexCheckedBeforeTraverse) && refusal == 5 && bad_index {
            return 4;
        }
        refusal
    }

    fn view_from_new_start(
        &self,
        outline: &[f64],
        closed: u8,
        x: f64,
        y: f64,
        start: u64,
        tolerance: f64,
        line_limit: f64,
        out: &mut [u8],
    ) -> u8 {
        let line_limit = self.limit(Call::ViewFromNewStart, line_limit);
        let closed = if self.is(Fault::OnlyOneCountsAsClosed) {
            u8::from(closed == 1)
        } else {
            closed
        };
        let old = old_number(out);
        let from_new_start = |line_limit, out: &mut [u8]| {
            Oracle.view_from_new_start(outline, closed, x, y, start, tolerance, line_limit, out)
        };
        let default = from_new_start(LINE_LIMIT, &mut out.to_vec());
        if self.misplaces(Fault::LimitRefusedAfterOpen, line_limit) && default == 10 {
            return 10;
        }
        let refusal = from_new_start(line_limit, out);
        if self.is(Fault::NewStartKeepsAnOldNumber) {
            return renumber(refusal, out, old);
        }
        refusal
    }

    fn view_validate(
        &self,
        outline: &[f64],
        bytes: &[u8],
        line_limit: f64,
        whole: &mut [u64],
        out: &mut [f64],
    ) -> u8 {
        let mut line_limit = self.limit(Call::ViewValidate, line_limit);
        let count = outline.len() / 3;
        let offset = record::decode(bytes).map_or(0, |record| record.end_index_offset);
        let early = self.misplaces(Fault::LimitRefusedAfterVerdictOne, line_limit) && count < 2
            || self.misplaces(Fault::LimitRefusedAfterVerdictTwo, line_limit) && offset > count;
        if early {
            line_limit = LINE_LIMIT;
        }
        let (mut default, mut numbers) = ([0; 4], [0.0; 5]);
        let without = Oracle.view_validate(outline, bytes, LINE_LIMIT, &mut default, &mut numbers);
        if self.misplaces(Fault::LimitRefusedAfterIndexOfARecord, line_limit) && without == 4 {
            return 4;
        }
        if self.is(Fault::ThreeWordsAreRoom) && whole.len() == 3 {
            let mut words = [0; 4];
            let refusal = Oracle.view_validate(outline, bytes, line_limit, &mut words, out);
            if refusal == 0 {
                whole.copy_from_slice(&words[..3]);
            }
            return refusal;
        }
        let refusal = Oracle.view_validate(outline, bytes, line_limit, whole, out);
        if refusal != 0 {
            return refusal;
        }
        if self.is(Fault::RootsOfTheDefaultLimit) {
            whole[3] = default[3];
        }
        whole[3] = self.roots(outline, bytes, whole[0], whole[3]);
        if whole[0] == 7 && self.is(Fault::FinalVertexTestedWithTheOtherTolerance) {
            let record = record::decode(bytes).unwrap();
            let index = (record.start_index + record.end_index_offset) % (outline.len() / 3);
            let v = &outline[3 * index..3 * index + 3];
            if record
                .end_point
                .fuzzy_eq_eps(Vector2::new(v[0], v[1]), 1e-3)
            {
                whole[0] = 5;
                out[..2].copy_from_slice(&[record.end_point.x, record.end_point.y]);
                out[2..5].copy_from_slice(v);
            }
        }
        if whole[0] == 6 && self.is(Fault::VerdictSixValuesExchanged) {
            out.swap(0, 1);
        }
        refusal
    }

    fn view_mark(
        &self,
        outline: &[f64],
        closed: u8,
        bytes: &[u8],
        line_limit: f64,
        out: &mut [u8],
    ) -> u8 {
        let line_limit = self.limit(Call::ViewMark, line_limit);
        let record = record::decode(bytes).ok();
        let inverted = record.is_some_and(|record| record.inverted_direction);
        let last = record.is_some_and(|record| {
            record.start_index + record.end_index_offset + 1 == outline.len() / 3
        });
        let as_closed = self.is(Fault::CutAcrossTheGap)
            || self.is(Fault::CutAlongTheClosingSegment) && last
            || self.is(Fault::OnlyForwardViewsHeld) && inverted;
        let as_open = self.is(Fault::ClosedOutlinesHeldToo)
            || self.is(Fault::ClosedByTwoTakenForOpen) && closed == 2;
        let closed = match closed {
            _ if as_closed => 1,
            _ if as_open => 0,
            _ => closed,
        };
        let refusal = Oracle.view_mark(outline, closed, bytes, line_limit, out);
        if self.misplaces(Fault::LimitRefusedBeforeDirection, line_limit) && refusal == 12 {
            return 2;
        }
        refusal
    }

    fn view_count(&self, outline: &[f64], bytes: &[u8], out: &mut [u64]) -> u8 {
        let numbered = bytes.len() == 64 && record::cut_number(bytes) != 0;
        if self.is(Fault::NumberedRecordRefused) && numbered {
            return 12;
        }
        if self.is(Fault::OffsetEqualToTheCountRefused)
            && let Ok(record) = record::decode(bytes)
            && view::count(outline, &record).is_ok()
            && record.end_index_offset == outline.len() / 3
        {
            return 5;
        }
        let outline = match outline.len() / 3 {
            1025..=2000 if self.is(Fault::OldVertexLimit) => return 3,
            2001 if self.is(Fault::OneVertexOverTheLimit) => &outline[3..],
            _ => outline,
        };
        Oracle.view_count(outline, bytes, out)
    }

    fn view_get(&self, outline: &[f64], bytes: &[u8], position: u64, out: &mut [f64]) -> u8 {
        let refusal = Oracle.view_get(outline, bytes, position, &mut out.to_vec());
        if refusal == 0
            && self.is(Fault::LookupChecksAllVertices)
            && outline.iter().any(|x| x.is_nan())
        {
            return 1;
        }
        Oracle.view_get(outline, bytes, position, out)
    }

    fn view_list(&self, outline: &[f64], bytes: &[u8], out: &mut [f64], count: &mut [u64]) -> u8 {
        let refusal = Oracle.view_list(outline, bytes, out, count);
        if refusal != 0 {
            return refusal;
        }
        if self.is(Fault::WritesPastTheList)
            && let Some(place) = out.get_mut(3 * count[0] as usize)
        {
            *place = 0.0;
        }
        if let Some(n) = Self::inverted_list(outline, bytes) {
            if self.is(Fault::MinusZeroAsLastBulge) {
                out[3 * n - 1] = -0.0;
            }
            if self.is(Fault::BulgesNegatedAtTheirOldVertex) {
                for k in (1..n - 1).rev() {
                    out[3 * k + 2] = out[3 * k - 1];
                }
            }
        }
        refusal
    }

    fn view_reverse(&self, outline: &[f64], bytes: &[u8], out: &mut [u8]) -> u8 {
        if self.is(Fault::WritesPastTheRoom) && out.len() == 63 {
            let mut whole = [0; 64];
            let refusal = Oracle.view_reverse(outline, bytes, &mut whole);
            out.copy_from_slice(&whole[..63]);
            return refusal;
        }
        let refusal = Oracle.view_reverse(outline, bytes, out);
        if self.is(Fault::ReversalDropsTheNumber) {
            return renumber(refusal, out, [0; 4]);
        }
        refusal
    }

    fn view_trim(&self, outline: &[f64], bytes: &[u8], i: u64, j: u64, out: &mut [u8]) -> u8 {
        let refusal = Oracle.view_trim(outline, bytes, i, j, out);
        if refusal == 0 {
            let record = record::decode(bytes).unwrap();
            let start = if record.inverted_direction {
                record.start_index + record.end_index_offset + 1 - j as usize
            } else {
                record.start_index + i as usize
            };
            let count = outline.len() / 3;
            let start = match self.0 {
                Fault::StartNotWrapped => start,
                Fault::StartEqualToTheCountNotWrapped if start == count => start,
                Fault::WrappedStartOneTooHigh if start >= count => start - (count - 1),
                Fault::TrimDropsTheNumber => return renumber(refusal, out, [0; 4]),
                Fault::TrimKeepsHalfTheNumber => {
                    return renumber(refusal, out, [bytes[60], bytes[61], 0, 0]);
                }
                _ => return refusal,
            };
            out[..4].copy_from_slice(&(start as u32).to_le_bytes());
        }
        refusal
    }
}

/// The calls up to the part of a short run that finds a difference; none where no part does.
fn found_within(fault: Fault) -> Option<u64> {
    let mut report = Report::default();
    for part in 0..20 {
        compare_calls(&Spoilt(fault), 3 + part, 5_000, &mut report);
        assert_eq!(report.shown.is_empty(), report.different == 0);
        if report.different > 0 {
            return Some(report.calls);
        }
    }
    None
}

#[test]
fn each_fault_is_found() {
    assert_eq!(found_within(Fault::None), None);
    for fault in [
        Fault::OffsetEqualToTheCountRefused,
        Fault::BulgesNegatedAtTheirOldVertex,
        Fault::MinusZeroAsLastBulge,
        Fault::FinalVertexTestedWithTheOtherTolerance,
        Fault::ToleranceEndsRefused,
        Fault::NumberRefusedBeforeLength,
        Fault::EndBulgeNotChecked,
        Fault::RefusalWrites,
        Fault::WritesPastTheList,
        Fault::WritesPastTheRoom,
        Fault::LookupChecksAllVertices,
        Fault::OnlyOneCountsAsClosed,
        Fault::IndexCheckedBeforeTraverse,
        Fault::LimitItselfIsALine,
        Fault::TieToTheFirstEnd,
        Fault::AtTheDistanceIsGreater,
        Fault::ZeroLosesItsSign,
        Fault::SubnormalRootsAnUlpOff,
        Fault::TiedRootsRoundedUp,
        Fault::StartNotWrapped,
        Fault::StartEqualToTheCountNotWrapped,
        Fault::WrappedStartOneTooHigh,
        Fault::EqualNumbersNotExchanged,
        Fault::SplitAtTheEndOnThePoint,
        Fault::VerdictSixValuesExchanged,
        Fault::CutAcrossTheGap,
        Fault::CutAlongTheClosingSegment,
        Fault::ClosedOutlinesHeldToo,
        Fault::OnlyForwardViewsHeld,
        Fault::ClosedByTwoTakenForOpen,
        Fault::OldVertexLimit,
        Fault::OneVertexOverTheLimit,
        Fault::NumberedRecordRefused,
        Fault::ReversalDropsTheNumber,
        Fault::TrimDropsTheNumber,
        Fault::TrimKeepsHalfTheNumber,
        Fault::CreateKeepsAnOldNumber,
        Fault::NewStartKeepsAnOldNumber,
        Fault::OnlyOneRootCounted,
        Fault::RootOfAnUnplacedStartNotCounted,
        Fault::LineTakesARoot,
        Fault::PointNearAnEndTakesARoot,
        Fault::NoRootsReported,
        Fault::ThreeWordsAreRoom,
        Fault::LimitIgnored(Call::SegArcRadiusAndCenter),
        Fault::LimitIgnored(Call::SegSplitAtPoint),
        Fault::LimitIgnored(Call::SegTangentVector),
        Fault::LimitIgnored(Call::SegClosestPoint),
        Fault::LimitIgnored(Call::SegDistanceIsGreaterThan),
        Fault::LimitIgnored(Call::SegBoundingBox),
        Fault::LimitIgnored(Call::SegMidpoint),
        Fault::LimitIgnored(Call::ViewCreate),
        Fault::LimitIgnored(Call::ViewFromNewStart),
        Fault::LimitIgnored(Call::ViewValidate),
        Fault::LimitIgnored(Call::ViewMark),
        Fault::LimitInALinesEndTest,
        Fault::LimitInALinesEndTestOfDistance,
        Fault::LimitInTheTestOfAnArcsEnds,
        Fault::LimitInTheBoxOfAnArcsEnds,
        Fault::GreatestLimitRefused,
        Fault::LeastLimitRefused,
        Fault::NanLimitAccepted,
        Fault::LimitRefusedBeforeNumber,
        Fault::LimitRefusedBeforePoint,
        Fault::LimitRefusedAfterNoArc,
        Fault::LimitRefusedAfterOpen,
        Fault::LimitRefusedAfterTraverse,
        Fault::LimitRefusedAfterIndex,
        Fault::LimitRefusedAfterVerdictOne,
        Fault::LimitRefusedAfterVerdictTwo,
        Fault::LimitRefusedAfterIndexOfARecord,
        Fault::LimitRefusedAfterRoom,
        Fault::LimitRefusedBeforeDirection,
        Fault::RootsOfTheDefaultLimit,
    ] {
        let calls = found_within(fault);
        println!("{fault:?}: found within {calls:?} calls");
        assert!(calls.is_some(), "{fault:?} was not found");
    }
}

#[test]
fn each_fault_in_rows_of_splits_is_found() {
    for fault in [
        Fault::SplitAnUlpOverTheHalfCircle,
        Fault::SplitHalfCircleRefused,
        Fault::SplitTurnedBack,
        Fault::LimitIgnored(Call::SegSplitAtPoint),
        Fault::GreatestLimitRefused,
        Fault::NanLimitAccepted,
    ] {
        let mut report = Report::default();
        compare_splits(&Spoilt(fault), 3, 10_000, &mut report);
        println!("{fault:?}: found {} times", report.different);
        assert!(report.different > 0, "{fault:?} was not found");
    }
}

/// A sheet's text with other lines where they begin with this word.
fn with_lines(bytes: &[u8], word: &str, change: impl Fn(&str) -> String) -> Vec<u8> {
    let text = String::from_utf8(sheet_text(bytes)).unwrap();
    let lines = text.lines().map(|line| {
        if line.starts_with(word) {
            change(line) + "\n"
        } else {
            format!("{line}\n")
        }
    });
    lines.collect::<String>().into_bytes()
}

#[test]
fn each_sheet_fault_is_found() {
    type Program = fn(&[u8]) -> Vec<u8>;
    let numbered_refused: Program = |bytes| {
        let text = sheet_text(bytes);
        let vertices = bytes
            .get(4..6)
            .map_or(0, |v| u16::from_le_bytes([v[0], v[1]]));
        let records = bytes.get(16 + 24 * usize::from(vertices)..);
        let numbered = |record: &[u8]| record::cut_number(record) != 0;
        if text.starts_with(b"outline") && records.unwrap_or(&[]).chunks_exact(64).any(numbered) {
            return b"refused 12\n".to_vec();
        }
        text
    };
    let number_missing: Program = |bytes| {
        with_lines(bytes, "view ", |line| match line.rsplit_once(' ') {
            Some((rest, _)) if !line.contains("refused") => rest.to_string(),
            _ => line.to_string(),
        })
    };
    let number_before_the_count: Program = |bytes| {
        with_lines(bytes, "view ", |line| {
            match line.split(' ').collect::<Vec<_>>()[..] {
                [view, k, verdict, mark, count, number] => {
                    [view, k, verdict, mark, number, count].join(" ")
                }
                _ => line.to_string(),
            }
        })
    };
    let number_of_held_views_0: Program = |bytes| {
        with_lines(bytes, "view ", |line| match line.split_once(" hold 0 ") {
            Some((rest, _)) => format!("{rest} hold 0 0"),
            None => line.to_string(),
        })
    };
    let number_after_a_refusal: Program = |bytes| {
        with_lines(bytes, "view ", |line| {
            if line.contains("refused") {
                format!("{line} 0")
            } else {
                line.to_string()
            }
        })
    };
    let number_signed: Program = |bytes| {
        with_lines(bytes, "view ", |line| match line.rsplit_once(' ') {
            Some((rest, number)) => format!("{rest} {}", number.parse::<u32>().unwrap() as i32),
            None => line.to_string(),
        })
    };
    let extra_byte_ignored: Program = |bytes| {
        let text = sheet_text(bytes);
        match bytes.split_last() {
            Some((_, shorter)) if text == b"refused 11\n" => sheet_text(shorter),
            _ => text,
        }
    };
    let bit_1_unknown: Program = |bytes| {
        if bytes.get(2).is_some_and(|flags| flags & 2 != 0) {
            b"refused 11\n".to_vec()
        } else {
            sheet_text(bytes)
        }
    };
    let numbers_before_records: Program = |bytes| {
        let text = sheet_text(bytes);
        let spoilt = bytes.chunks_exact(8).any(|x| x[6..] == [0xf0, 0x7f]);
        if text == b"refused 12\n" && spoilt {
            b"refused 1\n".to_vec()
        } else {
            text
        }
    };
    let last_line_feed_missing: Program = |bytes| {
        let mut text = sheet_text(bytes);
        text.pop();
        text
    };
    let cut_across_the_gap: Program = |bytes| {
        let text = String::from_utf8(sheet_text(bytes)).unwrap();
        let views = |text: &str| text.find("view").unwrap_or(text.len());
        match bytes.get(2) {
            Some(flags) if text.starts_with("outline") => {
                let closed = [&bytes[..2], &[flags | 1], &bytes[3..]].concat();
                let as_closed = String::from_utf8(sheet_text(&closed)).unwrap();
                [&text[..views(&text)], &as_closed[views(&as_closed)..]].concat()
            }
            _ => text,
        }
        .into_bytes()
    };
    let old_vertex_limit: Program = |bytes| match bytes.get(4..6) {
        Some(v) if u16::from_le_bytes([v[0], v[1]]) > 1024 => b"refused 11\n".to_vec(),
        _ => sheet_text(bytes),
    };
    let word_missing_after_none: Program =
        |bytes| with_lines(bytes, "box ", |line| line.replace("none retired", "none"));
    let word_missing_after_numbers: Program = |bytes| {
        with_lines(bytes, "box ", |line| match line {
            "box none retired" => line.to_string(),
            _ => line.replace(" retired", ""),
        })
    };
    let word_without_the_bit: Program = |bytes| {
        with_lines(bytes, "box ", |line| match line.strip_suffix(" retired") {
            Some(_) => line.to_string(),
            None => format!("{line} retired"),
        })
    };
    // The word is right, so that only the numbers can tell.
    let former_box: Program = |bytes| {
        with_lines(bytes, "box ", |line| match line.strip_suffix(" retired") {
            None | Some("box none") => line.to_string(),
            Some(_) => former_box_line(bytes) + " retired",
        })
    };
    for (name, program) in [
        ("no word after box none", word_missing_after_none),
        ("no word after numbers", word_missing_after_numbers),
        ("the word without the bit", word_without_the_bit),
        ("the former box", former_box),
        ("the old vertex limit", old_vertex_limit),
        ("views cut across the gap", cut_across_the_gap),
        ("a cut number refused", numbered_refused),
        ("no cut number", number_missing),
        ("the cut number before the count", number_before_the_count),
        ("0 for a held view's cut number", number_of_held_views_0),
        ("a cut number after a refusal", number_after_a_refusal),
        ("a signed cut number", number_signed),
        ("an extra byte ignored", extra_byte_ignored),
        ("flag bit 1 unknown", bit_1_unknown),
        ("numbers before records", numbers_before_records),
        ("last line feed missing", last_line_feed_missing),
    ] {
        let mut report = Report::default();
        compare_sheets(program, 4, 2_000, &mut report);
        println!("{name}: found {} times", report.different);
        assert!(report.different > 0, "{name} was not found");
    }
}
