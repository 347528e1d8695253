//! The view calls. An outline is lent as numbers in threes: x, y, bulge. What `.._over` means is said in `segment`.

use crate::checks::{
    MOST_VERTICES, check, line_limit, outline_in_range, point_in_range, record_in_range, tolerance,
    vertex_in_range,
};
use crate::limited::{Limited, run_at};
use crate::number::{Number, at_limit, same_point, same_record, same_vertex};
use crate::{PlineVertex, PlineViewData, Vector2, ViewDataValidation, refusal};
use cavalier_contours::polyline::{PlineSource, PlineView, Polyline};
use std::marker::PhantomData;

/// A lent outline, as the published text reads one over numbers of this type.
#[derive(Debug, Clone, Copy)]
pub(crate) struct Outline<'a, T = f64> {
    numbers: &'a [f64],
    closed: bool,
    read_as: PhantomData<T>,
}

impl<'a> Outline<'a> {
    /// Refusal 3, for under `least` vertices too.
    pub fn new(numbers: &'a [f64], closed: bool, least: usize) -> Result<Self, u8> {
        let vertices = numbers.len() / 3;
        check(
            numbers.len().is_multiple_of(3) && (least..=MOST_VERTICES).contains(&vertices),
            refusal::OUTLINE,
        )?;
        Ok(Outline {
            numbers,
            closed,
            read_as: PhantomData,
        })
    }

    /// The same outline, read over numbers of another type.
    fn over<T>(&self) -> Outline<'a, T> {
        Outline {
            numbers: self.numbers,
            closed: self.closed,
            read_as: PhantomData,
        }
    }
}

impl<T: Number> PlineSource for Outline<'_, T> {
    type Num = T;
    type OutputPolyline = Polyline<T>;

    fn get_userdata_count(&self) -> usize {
        0
    }

    fn get_userdata_values(&self) -> impl Iterator<Item = u64> + '_ {
        std::iter::empty()
    }

    fn vertex_count(&self) -> usize {
        self.numbers.len() / 3
    }

    fn is_closed(&self) -> bool {
        self.closed
    }

    fn get(&self, index: usize) -> Option<PlineVertex<T>> {
        (index < self.vertex_count()).then(|| self.at(index))
    }

    fn at(&self, index: usize) -> PlineVertex<T> {
        let v = &self.numbers[3 * index..3 * index + 3];
        PlineVertex::new(T::of(v[0]), T::of(v[1]), T::of(v[2]))
    }
}

/// `create`: 3, 1, 2, 5 for a traverse count of 0, 4, 5 for the resulting offset.
#[allow(clippy::too_many_arguments)]
pub fn create(
    outline: &[f64],
    start: u64,
    end: Vector2,
    intersect: u64,
    vertex: &[f64],
    traverse: u64,
    eps: f64,
    limit: f64,
) -> Result<PlineViewData, u8> {
    at_limit!(limit, |T| create_over::<T>(
        outline, start, end, intersect, vertex, traverse, eps, limit
    ))
}

#[allow(clippy::too_many_arguments)]
#[inline]
pub(crate) fn create_over<T: Number>(
    outline: &[f64],
    start: u64,
    end: Vector2,
    intersect: u64,
    vertex: &[f64],
    traverse: u64,
    eps: f64,
    limit: f64,
) -> Result<PlineViewData, u8> {
    let source = Outline::new(outline, false, 2)?;
    let updated_start = PlineVertex::from_slice(vertex).ok_or(refusal::OUTLINE)?;
    check(
        outline_in_range(outline) && point_in_range(end) && vertex_in_range(updated_start),
        refusal::NUMBER,
    )?;
    tolerance(eps)?;
    line_limit(limit)?;
    check(traverse != 0, refusal::OFFSET)?;
    let count = source.vertex_count() as u64;
    check(start < count && intersect < count, refusal::INDEX)?;
    let record: PlineViewData = same_record(PlineViewData::create(
        &source.over(),
        start as usize,
        same_point(end),
        intersect as usize,
        same_vertex(updated_start),
        traverse as usize,
        T::of(eps),
    ));
    check(
        record.end_index_offset <= source.vertex_count(),
        refusal::OFFSET,
    )?;
    Ok(record)
}

/// `from_new_start` on closed outlines: 3, 1, 2, 10, 4.
pub fn from_new_start(
    outline: &[f64],
    closed: bool,
    point: Vector2,
    start: u64,
    eps: f64,
    limit: f64,
) -> Result<PlineViewData, u8> {
    at_limit!(limit, |T| from_new_start_over::<T>(
        outline, closed, point, start, eps, limit
    ))
}

#[inline]
pub(crate) fn from_new_start_over<T: Number>(
    outline: &[f64],
    closed: bool,
    point: Vector2,
    start: u64,
    eps: f64,
    limit: f64,
) -> Result<PlineViewData, u8> {
    let source = Outline::new(outline, closed, 2)?;
    check(
        outline_in_range(outline) && point_in_range(point),
        refusal::NUMBER,
    )?;
    tolerance(eps)?;
    line_limit(limit)?;
    check(closed, refusal::OPEN)?;
    check(start < source.vertex_count() as u64, refusal::INDEX)?;
    let (source, point) = (source.over(), same_point(point));
    let record = PlineViewData::from_new_start(&source, point, start as usize, T::of(eps));
    let record = record.expect("the published text answers for a closed outline");
    Ok(same_record(record))
}

/// Validation: 3 (not for under two vertices), 1, 2, verdicts 1 and 2, then 4, then verdicts 3 to 7.
pub fn validate(
    outline: &[f64],
    record: &PlineViewData,
    limit: f64,
) -> Result<ViewDataValidation<f64>, u8> {
    at_limit!(limit, |T| validate_over::<T>(outline, record, limit))
}

#[inline]
pub(crate) fn validate_over<T: Number>(
    outline: &[f64],
    record: &PlineViewData,
    limit: f64,
) -> Result<ViewDataValidation<f64>, u8> {
    let source = Outline::new(outline, false, 0)?;
    check(outline_in_range(outline), refusal::NUMBER)?;
    validate_in::<T>(&source, record, limit)
}

/// Validation, and how many square roots the published text takes for the verdict. Plain f64 does not count them, so at the
/// default limit too they are those of `Limited` numbers, over which the verdict must have the same number.
pub fn validate_counted(
    outline: &[f64],
    record: &PlineViewData,
    limit: f64,
) -> Result<(ViewDataValidation<f64>, u64), u8> {
    let verdict = validate(outline, record, limit)?;
    let (again, roots) = run_at(limit, || validate_over::<Limited>(outline, record, limit));
    assert_eq!(verdict_number(&again?), verdict_number(&verdict));
    Ok((verdict, roots))
}

/// Validation on an outline that is in range.
#[inline]
pub(crate) fn validate_in<T: Number>(
    source: &Outline,
    record: &PlineViewData,
    limit: f64,
) -> Result<ViewDataValidation<f64>, u8> {
    check(record_in_range(record), refusal::NUMBER)?;
    line_limit(limit)?;
    let count = source.vertex_count();
    let verdict_1_or_2 = count < 2 || record.end_index_offset > count;
    check(verdict_1_or_2 || record.start_index < count, refusal::INDEX)?;
    let record: PlineViewData<T> = same_record(*record);
    Ok(T::plain_verdict(record.validate_for_source(&source.over())))
}

/// A verdict's number: 1 to 7, in the order of `ViewDataValidation`.
pub fn verdict_number(verdict: &ViewDataValidation<f64>) -> u8 {
    match verdict {
        ViewDataValidation::SourceHasNoSegments => 1,
        ViewDataValidation::OffsetOutOfRange { .. } => 2,
        ViewDataValidation::UpdatedStartNotOnSegment { .. } => 3,
        ViewDataValidation::EndPointNotOnSegment { .. } => 4,
        ViewDataValidation::EndPointOnFinalOffsetVertex { .. } => 5,
        ViewDataValidation::UpdatedBulgeDoesNotMatch { .. } => 6,
        ViewDataValidation::IsValid => 7,
    }
}

/// The mark: cut when the verdict is 7, except across the gap of an open outline.
pub fn mark(outline: &[f64], closed: bool, record: &PlineViewData, limit: f64) -> Result<bool, u8> {
    at_limit!(limit, |T| mark_over::<T>(outline, closed, record, limit))
}

#[inline]
pub(crate) fn mark_over<T: Number>(
    outline: &[f64],
    closed: bool,
    record: &PlineViewData,
    limit: f64,
) -> Result<bool, u8> {
    let verdict = validate_over::<T>(outline, record, limit)?;
    let source = Outline::new(outline, closed, 0)?;
    Ok(is_cut(&source, record, &verdict))
}

/// Whether a view with this verdict is cut: on an open outline the segments that it uses are gone through one by one, and
/// the one from the last vertex to the first, which is not there, must not be among them.
pub(crate) fn is_cut(
    source: &Outline,
    record: &PlineViewData,
    verdict: &ViewDataValidation<f64>,
) -> bool {
    if verdict_number(verdict) != 7 {
        return false;
    }
    let missing = source.vertex_count() - 1;
    let mut used = (0..=record.end_index_offset)
        .map(|steps| source.fwd_wrapping_index(record.start_index, steps));
    source.is_closed() || used.all(|segment| segment != missing)
}

/// The checks that count, list, reversal and trim share: 3, 1, 5, 4.
fn checked<'a>(outline: &'a [f64], record: &PlineViewData) -> Result<Outline<'a>, u8> {
    let source = Outline::new(outline, false, 2)?;
    check(
        outline_in_range(outline) && record_in_range(record),
        refusal::NUMBER,
    )?;
    let count = source.vertex_count();
    check(record.end_index_offset <= count, refusal::OFFSET)?;
    check(record.start_index < count, refusal::INDEX)?;
    Ok(source)
}

/// The number of vertices: 3, 1, 5, 4.
pub fn count(outline: &[f64], record: &PlineViewData) -> Result<usize, u8> {
    let source = checked(outline, record)?;
    Ok(PlineView::new(&source, *record).vertex_count())
}

/// Lookup by position: 3, 5, 4, and 1 last, over the record and the source vertices that the lookup reads.
pub fn get(outline: &[f64], record: &PlineViewData, position: u64) -> Result<PlineVertex, u8> {
    let source = Outline::new(outline, false, 2)?;
    let count = source.vertex_count();
    let offset = record.end_index_offset;
    check(offset <= count, refusal::OFFSET)?;
    check(
        record.start_index < count && position < offset as u64 + 2,
        refusal::INDEX,
    )?;

    // The source vertices that `get_vertex` fetches, as steps from the start index.
    let k = position as usize;
    let steps = if k == 0 || k == offset + 1 {
        0..0
    } else if !record.inverted_direction {
        k..k + 1
    } else if k == offset {
        1..2
    } else {
        offset - k..offset - k + 2
    };
    let read_in_range = steps
        .map(|step| source.at(source.fwd_wrapping_index(record.start_index, step)))
        .all(vertex_in_range);
    check(record_in_range(record) && read_in_range, refusal::NUMBER)?;

    let vertex = PlineView::new(&source, *record).get(k);
    Ok(vertex.expect("the published text answers for a position of the view"))
}

/// All vertices of a view whose record was checked, each by the published text's lookup.
pub(crate) fn vertices<'a>(
    source: &'a Outline,
    record: PlineViewData,
) -> impl Iterator<Item = PlineVertex> + 'a {
    let view = PlineView::new(source, record);
    (0..view.vertex_count()).map(move |k| view.at(k))
}

/// The whole list, into a buffer of numbers: 3, 1, 5, 4, 8. Answers the number of vertices.
pub fn list_into(outline: &[f64], record: &PlineViewData, out: &mut [f64]) -> Result<usize, u8> {
    let source = checked(outline, record)?;
    let count = record.end_index_offset + 2;
    check(out.len() >= 3 * count, refusal::ROOM)?;
    for (place, v) in out.chunks_exact_mut(3).zip(vertices(&source, *record)) {
        place.copy_from_slice(&[v.x, v.y, v.bulge]);
    }
    Ok(count)
}

/// The whole list: 3, 1, 5, 4.
pub fn list(outline: &[f64], record: &PlineViewData) -> Result<Vec<PlineVertex>, u8> {
    let source = checked(outline, record)?;
    Ok(vertices(&source, *record).collect())
}

/// Refusal 7.
fn bulges_agree(record: &PlineViewData) -> Result<(), u8> {
    let equal = record.updated_start.bulge.to_bits() == record.updated_end_bulge.to_bits();
    check(
        record.end_index_offset != 0 || equal,
        refusal::UNEQUAL_BULGES,
    )
}

/// Reversal flips the direction and changes nothing else: 3, 1, 5, 4, 7.
pub fn reverse(outline: &[f64], record: &PlineViewData) -> Result<PlineViewData, u8> {
    checked(outline, record)?;
    bulges_agree(record)?;
    Ok(PlineViewData {
        inverted_direction: !record.inverted_direction,
        ..*record
    })
}

/// Trim keeps vertices i to j and the direction: 3, 1, 5, 4, 7, 9.
pub fn trim(outline: &[f64], record: &PlineViewData, i: u64, j: u64) -> Result<PlineViewData, u8> {
    let source = checked(outline, record)?;
    bulges_agree(record)?;
    let last = record.end_index_offset + 1;
    check(i < j && j <= last as u64, refusal::TRIM)?;

    // The same stretch on the forward list: from a to b.
    let (i, j) = (i as usize, j as usize);
    let (a, b) = if record.inverted_direction {
        (last - j, last - i)
    } else {
        (i, j)
    };
    let forward = PlineView::new(
        &source,
        PlineViewData {
            inverted_direction: false,
            ..*record
        },
    );
    Ok(PlineViewData {
        start_index: (record.start_index + a) % source.vertex_count(),
        end_index_offset: b - a - 1,
        updated_start: forward.at(a),
        updated_end_bulge: forward.at(b - 1).bulge,
        end_point: forward.at(b).pos(),
        inverted_direction: record.inverted_direction,
    })
}
