//! A case: one call with its arguments, as plain words.
//!
//! # The stored form
//!
//! Little-endian: the call's number (4 bytes), the number of words n (4 bytes), n words of 8 bytes. The words are
//! the arguments of the C face's function, in its order:
//!
//! - a number (f64) or a whole number (u64, u8): one word, an f64 as its bits;
//! - a lent slice of numbers: one word for its length, then its numbers;
//! - a record: one word for its length in bytes, then its bytes, padded with zeros to whole words;
//! - an answer buffer: one word for its length in places (numbers, whole numbers or bytes).
//!
//! | call | words |
//! |---|---|
//! | 1 sqrt | x, out |
//! | 2 vertex | numbers.., out |
//! | 3 seg_arc_radius_and_center | seg.., line_limit, out |
//! | 4 seg_split_at_point | seg.., x, y, tolerance, line_limit, out |
//! | 5 seg_tangent_vector | seg.., x, y, line_limit, out |
//! | 6 seg_closest_point | seg.., x, y, tolerance, line_limit, out |
//! | 7 seg_distance_is_greater_than | seg.., x, y, distance, tolerance, line_limit, out |
//! | 8 seg_bounding_box | seg.., line_limit, out |
//! | 9 seg_midpoint | seg.., line_limit, out |
//! | 10 view_create | outline.., start, x, y, intersect, vertex.., traverse, tolerance, line_limit, out |
//! | 11 view_from_new_start | outline.., closed, x, y, start, tolerance, line_limit, out |
//! | 12 view_validate | outline.., record.., line_limit, whole, out |
//! | 13 view_mark | outline.., closed, record.., line_limit, out |
//! | 14 view_count | outline.., record.., out |
//! | 15 view_get | outline.., record.., position, out |
//! | 16 view_list | outline.., record.., out, count |
//! | 17 view_reverse | outline.., record.., out |
//! | 18 view_trim | outline.., record.., i, j, out |
//!
//! # The stored answer
//!
//! One line for each case: its number from 0, a space, the refusal; where that is 0, then the words written, in the
//! order of the arguments, each after a space as 16 hex digits. Numbers are their bits, 64 bytes of a record are 8
//! little-endian words, a single byte is one word.

use oracle::record::decode;
use oracle::{LINE_LIMIT, Library, PlineViewData};
use std::fmt;

#[derive(Debug, Clone, Copy, PartialEq, Eq)]
pub enum Call {
    Sqrt = 1,
    Vertex,
    SegArcRadiusAndCenter,
    SegSplitAtPoint,
    SegTangentVector,
    SegClosestPoint,
    SegDistanceIsGreaterThan,
    SegBoundingBox,
    SegMidpoint,
    ViewCreate,
    ViewFromNewStart,
    ViewValidate,
    ViewMark,
    ViewCount,
    ViewGet,
    ViewList,
    ViewReverse,
    ViewTrim,
}

impl Call {
    pub const ALL: [Call; 18] = [
        Call::Sqrt,
        Call::Vertex,
        Call::SegArcRadiusAndCenter,
        Call::SegSplitAtPoint,
        Call::SegTangentVector,
        Call::SegClosestPoint,
        Call::SegDistanceIsGreaterThan,
        Call::SegBoundingBox,
        Call::SegMidpoint,
        Call::ViewCreate,
        Call::ViewFromNewStart,
        Call::ViewValidate,
        Call::ViewMark,
        Call::ViewCount,
        Call::ViewGet,
        Call::ViewList,
        Call::ViewReverse,
        Call::ViewTrim,
    ];

    /// Every refusal that document 01 lets this call give, 0 for its answer.
    pub fn refusals(self) -> &'static [u8] {
        match self {
            Call::Sqrt => &[0, 1, 8],
            Call::Vertex => &[0, 1, 3, 8],
            Call::SegArcRadiusAndCenter => &[0, 1, 2, 3, 6, 8],
            Call::SegSplitAtPoint
            | Call::SegTangentVector
            | Call::SegClosestPoint
            | Call::SegDistanceIsGreaterThan
            | Call::SegBoundingBox
            | Call::SegMidpoint => &[0, 1, 2, 3, 8],
            Call::ViewCreate => &[0, 1, 2, 3, 4, 5, 8],
            Call::ViewFromNewStart => &[0, 1, 2, 3, 4, 8, 10],
            Call::ViewValidate | Call::ViewMark => &[0, 1, 2, 3, 4, 8, 11, 12],
            Call::ViewCount | Call::ViewGet | Call::ViewList => &[0, 1, 3, 4, 5, 8, 11, 12],
            Call::ViewReverse => &[0, 1, 3, 4, 5, 7, 8, 11, 12],
            Call::ViewTrim => &[0, 1, 3, 4, 5, 7, 8, 9, 11, 12],
        }
    }

    /// Whether the call takes a line limit.
    pub fn takes_limit(self) -> bool {
        (Call::SegArcRadiusAndCenter as usize..=Call::ViewMark as usize).contains(&(self as usize))
    }

    /// The places that an answer takes in its buffers of numbers, whole numbers and bytes, the list's aside.
    fn answer(self) -> (usize, usize, usize) {
        match self {
            Call::Sqrt => (1, 0, 0),
            Call::SegTangentVector | Call::SegClosestPoint | Call::SegMidpoint => (2, 0, 0),
            Call::Vertex | Call::SegArcRadiusAndCenter | Call::ViewGet => (3, 0, 0),
            Call::SegBoundingBox => (4, 0, 0),
            Call::SegSplitAtPoint => (6, 0, 0),
            Call::SegDistanceIsGreaterThan | Call::ViewMark => (0, 0, 1),
            Call::ViewCreate | Call::ViewFromNewStart | Call::ViewReverse | Call::ViewTrim => {
                (0, 0, 64)
            }
            Call::ViewValidate => (5, 4, 0),
            Call::ViewCount => (0, 1, 0),
            Call::ViewList => (0, 1, 0),
        }
    }
}

/// A call and its arguments, flattened.
#[derive(Debug, Clone, PartialEq, Eq)]
pub struct Case {
    pub call: Call,
    pub words: Vec<u64>,
}

// Building a case, argument by argument.
impl Case {
    pub fn new(call: Call) -> Self {
        Case {
            call,
            words: Vec::new(),
        }
    }

    pub fn number(mut self, x: f64) -> Self {
        self.words.push(x.to_bits());
        self
    }

    pub fn whole(mut self, x: u64) -> Self {
        self.words.push(x);
        self
    }

    pub fn numbers(mut self, slice: &[f64]) -> Self {
        self.words.push(slice.len() as u64);
        self.words.extend(slice.iter().map(|x| x.to_bits()));
        self
    }

    pub fn bytes(mut self, slice: &[u8]) -> Self {
        self.words.push(slice.len() as u64);
        self.words.extend(slice.chunks(8).map(word_of));
        self
    }

    pub fn room(self, places: usize) -> Self {
        self.whole(places as u64)
    }
}

// The line limit of a case, for a call that takes one.
impl Case {
    /// Its place among the words: before the answer's buffers, of which validation has two.
    fn limit_place(&self) -> Option<usize> {
        let validation = self.call == Call::ViewValidate;
        let behind = if validation { 2 } else { 1 };
        let takes_limit = self.call.takes_limit();
        takes_limit.then(|| self.words.len() - 1 - behind)
    }

    pub fn limit(&self) -> Option<f64> {
        Some(f64::from_bits(self.words[self.limit_place()?]))
    }

    /// The same case at another limit.
    pub fn at_limit(&self, limit: f64) -> Self {
        let mut case = self.clone();
        let place = case.limit_place().expect("the call takes a limit");
        case.words[place] = limit.to_bits();
        case
    }

    /// Whether the call is about a segment that is an arc at the default limit and a line at its own.
    pub fn straightened(&self) -> bool {
        let Some(limit) = self.limit() else {
            return false;
        };
        let straightened = |bulge: &f64| bulge.abs() >= LINE_LIMIT && bulge.abs() < limit;
        self.bulges().iter().any(straightened)
    }

    /// The bulges of the segments that the call is about.
    fn bulges(&self) -> Vec<f64> {
        let mut a = Arguments(&self.words);
        let numbers = a.numbers();
        let segments = match self.call {
            // The fourth word behind the outline: the segment of the intersection, or of the new start.
            Call::ViewCreate | Call::ViewFromNewStart => vec![a.0[3] as usize],
            Call::ViewValidate | Call::ViewMark => {
                if self.call == Call::ViewMark {
                    a.byte();
                }
                let count = (numbers.len() / 3).max(1);
                let of = |record: PlineViewData| {
                    let start = record.start_index;
                    vec![start, (start + record.end_index_offset) % count]
                };
                decode(&a.bytes()).map(of).unwrap_or_default()
            }
            _ => vec![0],
        };
        let bulge = |segment| Some(numbers.chunks_exact(3).nth(segment)?[2]);
        segments.into_iter().filter_map(bulge).collect()
    }
}

/// Up to 8 bytes as a little-endian word.
fn word_of(bytes: &[u8]) -> u64 {
    let mut word = [0; 8];
    word[..bytes.len()].copy_from_slice(bytes);
    u64::from_le_bytes(word)
}

/// Reads a case's arguments back, in order.
struct Arguments<'a>(&'a [u64]);

impl Arguments<'_> {
    fn whole(&mut self) -> u64 {
        let (first, rest) = self.0.split_first().expect("an argument is missing");
        self.0 = rest;
        *first
    }

    fn number(&mut self) -> f64 {
        f64::from_bits(self.whole())
    }

    fn byte(&mut self) -> u8 {
        self.whole() as u8
    }

    fn numbers(&mut self) -> Vec<f64> {
        let length = self.whole() as usize;
        let (slice, rest) = self.0.split_at(length);
        self.0 = rest;
        slice.iter().map(|bits| f64::from_bits(*bits)).collect()
    }

    fn bytes(&mut self) -> Vec<u8> {
        let length = self.whole() as usize;
        let (slice, rest) = self.0.split_at(length.div_ceil(8));
        self.0 = rest;
        let mut bytes: Vec<u8> = slice.iter().flat_map(|word| word.to_le_bytes()).collect();
        bytes.truncate(length);
        bytes
    }

    fn room<T>(&mut self, fill: impl Fn(usize) -> T) -> Room<T> {
        Room::new(self.whole() as usize, fill)
    }
}

/// A lent answer buffer, filled with a pattern, with places behind it that were not lent.
#[derive(Debug, Default)]
struct Room<T> {
    places: Vec<T>,
    lent: usize,
}

impl<T> Room<T> {
    const BEHIND: usize = 3;

    fn new(lent: usize, fill: impl Fn(usize) -> T) -> Self {
        let places = (0..lent + Self::BEHIND).map(fill).collect();
        Room { places, lent }
    }

    fn lend(&mut self) -> &mut [T] {
        &mut self.places[..self.lent]
    }
}

fn number_pattern(place: usize) -> f64 {
    f64::from_bits(0x4b1d_a7e0_0000_0000 + place as u64)
}

fn whole_pattern(place: usize) -> u64 {
    0xfeed_0000_0000_0000 + place as u64
}

fn byte_pattern(place: usize) -> u8 {
    0xa5 ^ place as u8
}

/// What a call left: its refusal, and every place of its buffers, written or not.
#[derive(Debug, Default)]
pub struct Outcome {
    pub refusal: u8,
    numbers: Room<f64>,
    wholes: Room<u64>,
    bytes: Room<u8>,
}

impl PartialEq for Outcome {
    /// Equal bit for bit; any NaN is equal to any other.
    fn eq(&self, other: &Self) -> bool {
        let same = |(a, b): (&f64, &f64)| a.to_bits() == b.to_bits() || a.is_nan() && b.is_nan();
        self.refusal == other.refusal
            && self.numbers.places.len() == other.numbers.places.len()
            && self
                .numbers
                .places
                .iter()
                .zip(&other.numbers.places)
                .all(same)
            && self.wholes.places == other.wholes.places
            && self.bytes.places == other.bytes.places
    }
}

impl Outcome {
    /// The words that an answer wrote, in the order of the arguments; none for a refusal.
    pub fn written(&self, call: Call) -> Vec<u64> {
        if self.refusal != 0 {
            return Vec::new();
        }
        let (mut numbers, wholes, bytes) = call.answer();
        if call == Call::ViewList {
            numbers = 3 * self.wholes.places[0] as usize;
        }
        let numbers = self.numbers.places[..numbers].iter().map(|x| x.to_bits());
        let wholes = self.wholes.places[..wholes].iter().copied();
        let bytes = self.bytes.places[..bytes].chunks(8).map(word_of);
        if call == Call::ViewValidate {
            wholes.chain(numbers).collect()
        } else {
            numbers.chain(wholes).chain(bytes).collect()
        }
    }

    /// The verdict of a validation that answered, and the square roots that it took.
    pub fn verdict(&self) -> usize {
        self.wholes.places[0] as usize
    }

    pub fn roots(&self) -> usize {
        self.wholes.places[3] as usize
    }
}

impl fmt::Display for Outcome {
    fn fmt(&self, f: &mut fmt::Formatter<'_>) -> fmt::Result {
        write!(f, "{}", self.refusal)?;
        for x in &self.numbers.places {
            write!(f, " {:016x}", x.to_bits())?;
        }
        for x in &self.wholes.places {
            write!(f, " {x:016x}")?;
        }
        for x in &self.bytes.places {
            write!(f, " {x:02x}")?;
        }
        Ok(())
    }
}

impl fmt::Display for Case {
    fn fmt(&self, f: &mut fmt::Formatter<'_>) -> fmt::Result {
        write!(f, "{:?}", self.call)?;
        for word in &self.words {
            write!(f, " {word:016x}")?;
        }
        Ok(())
    }
}

impl Case {
    /// The stored form.
    pub fn stored(&self) -> Vec<u8> {
        let mut bytes = Vec::with_capacity(8 + 8 * self.words.len());
        bytes.extend((self.call as u32).to_le_bytes());
        bytes.extend((self.words.len() as u32).to_le_bytes());
        for word in &self.words {
            bytes.extend(word.to_le_bytes());
        }
        bytes
    }

    /// Makes the call.
    pub fn run(&self, library: &impl Library) -> Outcome {
        let mut outcome = Outcome::default();
        let Outcome {
            refusal,
            numbers,
            wholes,
            bytes,
        } = &mut outcome;
        let mut a = Arguments(&self.words);
        *refusal = match self.call {
            Call::Sqrt => {
                let x = a.number();
                *numbers = a.room(number_pattern);
                library.sqrt(x, numbers.lend())
            }
            Call::Vertex => {
                let slice = a.numbers();
                *numbers = a.room(number_pattern);
                library.vertex(&slice, numbers.lend())
            }
            Call::SegArcRadiusAndCenter => {
                let (seg, line_limit) = (a.numbers(), a.number());
                *numbers = a.room(number_pattern);
                library.seg_arc_radius_and_center(&seg, line_limit, numbers.lend())
            }
            Call::SegSplitAtPoint => {
                let (seg, x, y) = (a.numbers(), a.number(), a.number());
                let (tolerance, line_limit) = (a.number(), a.number());
                *numbers = a.room(number_pattern);
                library.seg_split_at_point(&seg, x, y, tolerance, line_limit, numbers.lend())
            }
            Call::SegTangentVector => {
                let (seg, x, y, line_limit) = (a.numbers(), a.number(), a.number(), a.number());
                *numbers = a.room(number_pattern);
                library.seg_tangent_vector(&seg, x, y, line_limit, numbers.lend())
            }
            Call::SegClosestPoint => {
                let (seg, x, y) = (a.numbers(), a.number(), a.number());
                let (tolerance, line_limit) = (a.number(), a.number());
                *numbers = a.room(number_pattern);
                library.seg_closest_point(&seg, x, y, tolerance, line_limit, numbers.lend())
            }
            Call::SegDistanceIsGreaterThan => {
                let (seg, x, y) = (a.numbers(), a.number(), a.number());
                let (distance, tolerance, line_limit) = (a.number(), a.number(), a.number());
                *bytes = a.room(byte_pattern);
                library.seg_distance_is_greater_than(
                    &seg,
                    x,
                    y,
                    distance,
                    tolerance,
                    line_limit,
                    bytes.lend(),
                )
            }
            Call::SegBoundingBox => {
                let (seg, line_limit) = (a.numbers(), a.number());
                *numbers = a.room(number_pattern);
                library.seg_bounding_box(&seg, line_limit, numbers.lend())
            }
            Call::SegMidpoint => {
                let (seg, line_limit) = (a.numbers(), a.number());
                *numbers = a.room(number_pattern);
                library.seg_midpoint(&seg, line_limit, numbers.lend())
            }
            Call::ViewCreate => {
                let (outline, start) = (a.numbers(), a.whole());
                let (x, y, intersect) = (a.number(), a.number(), a.whole());
                let (vertex, traverse) = (a.numbers(), a.whole());
                let (tolerance, line_limit) = (a.number(), a.number());
                *bytes = a.room(byte_pattern);
                library.view_create(
                    &outline,
                    start,
                    x,
                    y,
                    intersect,
                    &vertex,
                    traverse,
                    tolerance,
                    line_limit,
                    bytes.lend(),
                )
            }
            Call::ViewFromNewStart => {
                let (outline, closed) = (a.numbers(), a.byte());
                let (x, y, start) = (a.number(), a.number(), a.whole());
                let (tolerance, line_limit) = (a.number(), a.number());
                *bytes = a.room(byte_pattern);
                library.view_from_new_start(
                    &outline,
                    closed,
                    x,
                    y,
                    start,
                    tolerance,
                    line_limit,
                    bytes.lend(),
                )
            }
            Call::ViewValidate => {
                let (outline, record, line_limit) = (a.numbers(), a.bytes(), a.number());
                *wholes = a.room(whole_pattern);
                *numbers = a.room(number_pattern);
                library.view_validate(&outline, &record, line_limit, wholes.lend(), numbers.lend())
            }
            Call::ViewMark => {
                let (outline, closed) = (a.numbers(), a.byte());
                let (record, line_limit) = (a.bytes(), a.number());
                *bytes = a.room(byte_pattern);
                library.view_mark(&outline, closed, &record, line_limit, bytes.lend())
            }
            Call::ViewCount => {
                let (outline, record) = (a.numbers(), a.bytes());
                *wholes = a.room(whole_pattern);
                library.view_count(&outline, &record, wholes.lend())
            }
            Call::ViewGet => {
                let (outline, record, position) = (a.numbers(), a.bytes(), a.whole());
                *numbers = a.room(number_pattern);
                library.view_get(&outline, &record, position, numbers.lend())
            }
            Call::ViewList => {
                let (outline, record) = (a.numbers(), a.bytes());
                *numbers = a.room(number_pattern);
                *wholes = a.room(whole_pattern);
                library.view_list(&outline, &record, numbers.lend(), wholes.lend())
            }
            Call::ViewReverse => {
                let (outline, record) = (a.numbers(), a.bytes());
                *bytes = a.room(byte_pattern);
                library.view_reverse(&outline, &record, bytes.lend())
            }
            Call::ViewTrim => {
                let (outline, record) = (a.numbers(), a.bytes());
                let (i, j) = (a.whole(), a.whole());
                *bytes = a.room(byte_pattern);
                library.view_trim(&outline, &record, i, j, bytes.lend())
            }
        };
        outcome
    }
}
