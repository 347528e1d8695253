//! The library that is judged, through the program `replay`, which is made of the same functions.
//!
//! Each call is sent as a case in the stored form, and the words of the answer's line are copied to the lent buffers.
//! So only the words of an answer are seen: a write to any other place is not, and a place of the answer that was left
//! as it was reads as 0.

use cases::case::{Call, Case};
use cases::{command, repository};
use oracle::Library;
use std::cell::RefCell;
use std::io::{BufRead, BufReader, Write};
use std::process::{Child, ChildStdout, Stdio};

// The limits of `replay`, in crates/replay/src/case.rt. No case has more words than this, and no buffer more places.
const MOST: usize = 8192;
const MOST_WHOLES: usize = 16;
const MOST_BYTES: usize = 256;

/// What `replay` says of a case that does not fit.
const UNFIT: u8 = 255;

/// A running `replay`.
struct Replay {
    child: Child,
    output: BufReader<ChildStdout>,
    line: String,
}

thread_local! {
    // One for each thread.
    static REPLAY: RefCell<Replay> = RefCell::new(Replay::start());
}

impl Drop for Replay {
    fn drop(&mut self) {
        // This closes its input, and so it ends.
        let _ = self.child.wait();
    }
}

impl Replay {
    fn start() -> Self {
        let program = repository().join("target/bin/replay");
        assert!(
            program.exists(),
            "target/bin/replay is missing: run tests/build replay first"
        );
        let child = command(&program)
            .stdin(Stdio::piped())
            .stdout(Stdio::piped())
            .spawn();
        let mut child = child.expect("replay can be started");
        let output = child.stdout.take().expect("standard output is piped");
        Replay {
            child,
            output: BufReader::new(output),
            line: String::new(),
        }
    }

    /// The refusal and the words of the answer to a case.
    fn ask(&mut self, case: &Case) -> (u8, Vec<u64>) {
        // The words past those that replay takes would be the next case.
        assert!(case.words.len() <= MOST, "replay has no room for {case}");
        let input = self.child.stdin.as_mut().expect("standard input is piped");
        input
            .write_all(&case.stored())
            .expect("replay reads its cases");
        self.line.clear();
        self.output
            .read_line(&mut self.line)
            .expect("replay can be read");
        let mut words = self.line.split_ascii_whitespace().skip(1);
        let refusal = words.next().and_then(|word| word.parse().ok());
        let refusal = refusal.unwrap_or_else(|| panic!("replay ended, or did not answer: {case}"));
        assert!(refusal != UNFIT, "replay has no room for {case}");
        let word = |word| u64::from_str_radix(word, 16).expect("16 hex digits");
        (refusal, words.map(word).collect())
    }
}

fn ask(case: Case) -> (u8, Vec<u64>) {
    REPLAY.with_borrow_mut(|replay| replay.ask(&case))
}

// Every answer fits into the most places, so a longer buffer is lent as that many.
fn numbers_room(case: Case, out: &[f64]) -> Case {
    case.room(out.len().min(MOST))
}

fn wholes_room(case: Case, out: &[u64]) -> Case {
    case.room(out.len().min(MOST_WHOLES))
}

fn bytes_room(case: Case, out: &[u8]) -> Case {
    case.room(out.len().min(MOST_BYTES))
}

fn copy_numbers(words: &[u64], out: &mut [f64]) {
    for (word, place) in words.iter().zip(out) {
        *place = f64::from_bits(*word);
    }
}

fn copy_wholes(words: &[u64], out: &mut [u64]) {
    for (word, place) in words.iter().zip(out) {
        *place = *word;
    }
}

/// Makes a call whose answer is numbers.
fn numbers(case: Case, out: &mut [f64]) -> u8 {
    let (refusal, words) = ask(numbers_room(case, out));
    copy_numbers(&words, out);
    refusal
}

/// Makes a call whose answer is one byte.
fn byte(case: Case, out: &mut [u8]) -> u8 {
    let (refusal, words) = ask(bytes_room(case, out));
    for (word, place) in words.iter().zip(out) {
        *place = u8::try_from(*word).expect("a byte");
    }
    refusal
}

/// Makes a call whose answer is a record.
fn record(case: Case, out: &mut [u8]) -> u8 {
    let (refusal, words) = ask(bytes_room(case, out));
    let bytes = words.iter().flat_map(|word| word.to_le_bytes());
    for (byte, place) in bytes.zip(out) {
        *place = byte;
    }
    refusal
}

/// With other limits than replay has, the rest of a case would be read as the next one.
#[test]
fn the_limits_are_those_of_replay() {
    let source = repository().join("crates/replay/src/case.rt");
    let source = std::fs::read_to_string(source).expect("replay's source can be read");
    for line in [
        format!("const MOST: usize = {MOST};"),
        format!("let mut whole = [0u64; {MOST_WHOLES}];"),
        format!("let mut byte = [0u8; {MOST_BYTES}];"),
        format!("const UNFIT: u8 = {UNFIT};"),
    ] {
        assert!(source.contains(&line), "replay has no line: {line}");
    }
}

/// The library that is judged.
#[derive(Debug, Clone, Copy)]
pub struct Bisquefern;

impl Library for Bisquefern {
    fn sqrt(&self, x: f64, out: &mut [f64]) -> u8 {
        numbers(Case::new(Call::Sqrt).number(x), out)
    }

    fn vertex(&self, slice: &[f64], out: &mut [f64]) -> u8 {
        numbers(Case::new(Call::Vertex).numbers(slice), out)
    }

    fn seg_arc_radius_and_center(&self, seg: &[f64], line_limit: f64, out: &mut [f64]) -> u8 {
        let case = Case::new(Call::SegArcRadiusAndCenter).numbers(seg);
        numbers(case.number(line_limit), out)
    }

    fn seg_split_at_point(
        &self,
        seg: &[f64],
        x: f64,
        y: f64,
        tolerance: f64,
        line_limit: f64,
        out: &mut [f64],
    ) -> u8 {
        let case = Case::new(Call::SegSplitAtPoint).numbers(seg);
        let case = case.number(x).number(y);
        numbers(case.number(tolerance).number(line_limit), out)
    }

    fn seg_tangent_vector(
        &self,
        seg: &[f64],
        x: f64,
        y: f64,
        line_limit: f64,
        out: &mut [f64],
    ) -> u8 {
        let case = Case::new(Call::SegTangentVector).numbers(seg);
        numbers(case.number(x).number(y).number(line_limit), out)
    }

    fn seg_closest_point(
        &self,
        seg: &[f64],
        x: f64,
        y: f64,
        tolerance: f64,
        line_limit: f64,
        out: &mut [f64],
    ) -> u8 {
        let case = Case::new(Call::SegClosestPoint).numbers(seg);
        let case = case.number(x).number(y);
        numbers(case.number(tolerance).number(line_limit), out)
    }

    fn seg_distance_is_greater_than(
        &self,
        seg: &[f64],
        x: f64,
        y: f64,
        distance: f64,
        tolerance: f64,
        line_limit: f64,
        out: &mut [u8],
    ) -> u8 {
        let case = Case::new(Call::SegDistanceIsGreaterThan).numbers(seg);
        let case = case.number(x).number(y).number(distance);
        byte(case.number(tolerance).number(line_limit), out)
    }

    fn seg_bounding_box(&self, seg: &[f64], line_limit: f64, out: &mut [f64]) -> u8 {
        let case = Case::new(Call::SegBoundingBox).numbers(seg);
        numbers(case.number(line_limit), out)
    }

    fn seg_midpoint(&self, seg: &[f64], line_limit: f64, out: &mut [f64]) -> u8 {
        let case = Case::new(Call::SegMidpoint).numbers(seg);
        numbers(case.number(line_limit), out)
    }

    fn view_create(
        &self,
        outline: &[f64],
        start: u64,
        x: f64,
        y: f64,
        intersect: u64,
        vertex: &[f64],
        traverse: u64,
        tolerance: f64,
        line_limit: f64,
        out: &mut [u8],
    ) -> u8 {
        let case = Case::new(Call::ViewCreate).numbers(outline).whole(start);
        let case = case.number(x).number(y).whole(intersect).numbers(vertex);
        let case = case.whole(traverse).number(tolerance);
        record(case.number(line_limit), out)
    }

    fn view_from_new_start(
        &self,
        outline: &[f64],
        closed: u8,
        x: f64,
        y: f64,
        start: u64,
        tolerance: f64,
        line_limit: f64,
        out: &mut [u8],
    ) -> u8 {
        let case = Case::new(Call::ViewFromNewStart).numbers(outline);
        let case = case.whole(u64::from(closed)).number(x).number(y);
        let case = case.whole(start).number(tolerance);
        record(case.number(line_limit), out)
    }

    fn view_validate(
        &self,
        outline: &[f64],
        record: &[u8],
        line_limit: f64,
        whole: &mut [u64],
        out: &mut [f64],
    ) -> u8 {
        let case = Case::new(Call::ViewValidate).numbers(outline);
        let case = wholes_room(case.bytes(record).number(line_limit), whole);
        let (refusal, words) = ask(numbers_room(case, out));
        let (wholes, numbers) = words.split_at(words.len().min(4));
        copy_wholes(wholes, whole);
        copy_numbers(numbers, out);
        refusal
    }

    fn view_mark(
        &self,
        outline: &[f64],
        closed: u8,
        record: &[u8],
        line_limit: f64,
        out: &mut [u8],
    ) -> u8 {
        let case = Case::new(Call::ViewMark).numbers(outline);
        let case = case.whole(u64::from(closed)).bytes(record);
        byte(case.number(line_limit), out)
    }

    fn view_count(&self, outline: &[f64], record: &[u8], out: &mut [u64]) -> u8 {
        let case = Case::new(Call::ViewCount).numbers(outline).bytes(record);
        let (refusal, words) = ask(wholes_room(case, out));
        copy_wholes(&words, out);
        refusal
    }

    fn view_get(&self, outline: &[f64], record: &[u8], position: u64, out: &mut [f64]) -> u8 {
        let case = Case::new(Call::ViewGet).numbers(outline);
        numbers(case.bytes(record).whole(position), out)
    }

    fn view_list(&self, outline: &[f64], record: &[u8], out: &mut [f64], count: &mut [u64]) -> u8 {
        let case = Case::new(Call::ViewList).numbers(outline);
        let case = numbers_room(case.bytes(record), out);
        let (refusal, words) = ask(wholes_room(case, count));
        let (vertices, last) = words.split_at(words.len().saturating_sub(1));
        copy_numbers(vertices, out);
        copy_wholes(last, count);
        refusal
    }

    fn view_reverse(&self, outline: &[f64], bytes: &[u8], out: &mut [u8]) -> u8 {
        record(
            Case::new(Call::ViewReverse).numbers(outline).bytes(bytes),
            out,
        )
    }

    fn view_trim(&self, outline: &[f64], bytes: &[u8], i: u64, j: u64, out: &mut [u8]) -> u8 {
        let case = Case::new(Call::ViewTrim).numbers(outline).bytes(bytes);
        record(case.whole(i).whole(j), out)
    }
}
