//! Whole job sheets, sound and damaged, and the comparison of a program with the oracle's text.

use crate::generate::{Generator, on_circle};
use crate::report::Report;
use crate::{command, repository};
use oracle::record::{RECORD_BYTES, encode};
use oracle::sheet::{LONGEST, sheet_text};
use oracle::{LINE_LIMIT, PlineViewData, view};
use std::env;
use std::io::{ErrorKind, Write};
use std::path::{Path, PathBuf};
use std::process::Stdio;
use std::thread;

/// A sound sheet, of records with their cut numbers.
pub fn sheet_of(outline: &[f64], flags: u16, records: &[(PlineViewData, u32)]) -> Vec<u8> {
    let count = outline.len() / 3;
    let mut bytes = Vec::new();
    for field in [1, flags, count as u16, records.len() as u16] {
        bytes.extend(field.to_le_bytes());
    }
    for field in [16, 16 + 24 * count as u32] {
        bytes.extend(u32::to_le_bytes(field));
    }
    for number in outline {
        bytes.extend(number.to_le_bytes());
    }
    for (record, cut_number) in records {
        bytes.extend(encode(record, *cut_number));
    }
    bytes
}

/// The largest sheet: 2,000 vertices on a circle and 256 views, each cut, of 2,001 vertices and more, with cut numbers of
/// ten digits.
pub fn largest_sheet() -> Vec<u8> {
    let outline = largest_outline();
    let records: Vec<(PlineViewData, u32)> = (0..256)
        .map(|k| (whole_view(&outline, 976 + 4 * k), u32::MAX - k as u32))
        .collect();
    sheet_of(&outline, 1, &records)
}

/// 2,000 vertices on a circle of radius 1,000, lines and arcs in turn.
pub fn largest_outline() -> Vec<f64> {
    let mut outline = Vec::new();
    for k in 0..2000 {
        let p = on_circle(k, 2000);
        let bulge = if k % 2 == 0 { 0.0 } else { 0.2 };
        outline.extend([1000.0 * p.x, 1000.0 * p.y, bulge]);
    }
    outline
}

/// The view of a whole outline that starts in the middle of a segment; each other one is inverted.
pub fn whole_view(outline: &[f64], start: u64) -> PlineViewData {
    let at = 3 * start as usize;
    let next = (at + 3) % outline.len();
    let seg: Vec<f64> = [&outline[at..at + 3], &outline[next..next + 3]].concat();
    let middle = oracle::segment::seg_midpoint(&seg, LINE_LIMIT).unwrap();
    let mut record = view::from_new_start(outline, true, middle, start, 1e-5, LINE_LIMIT).unwrap();
    record.inverted_direction = start % 8 == 4;
    record
}

/// A sheet from a seed: sound, or damaged in one or more of its fields.
pub fn sheet(generator: &mut Generator) -> Vec<u8> {
    let mut outline = generator.outline();
    if generator.random.chance(10) {
        // Under two vertices there is no box, and its line is another one.
        outline.truncate(3 * generator.random.below(2));
    }
    let views = match generator.random.below(60) {
        0 => 256,
        1 => 257,
        2..=8 => 0,
        9..=30 => 1,
        _ => 2 + generator.random.below(6),
    };
    // A long outline with many views would only print a great deal.
    let views = if outline.len() > 3000 {
        views % 7
    } else {
        views
    };
    let records: Vec<(PlineViewData, u32)> = (0..views)
        .map(|_| (generator.record(&outline), generator.cut_number()))
        .collect();
    let flags = generator.random.below(4) as u16;
    let mut bytes = sheet_of(&outline, flags, &records);

    let damages = generator.random.pick(&[0, 0, 0, 0, 1, 1, 1, 1, 2, 3]);
    for _ in 0..damages {
        damage(generator, &mut bytes, outline.len() / 3, views);
    }
    bytes
}

/// Changes one thing.
fn damage(generator: &mut Generator, bytes: &mut Vec<u8>, vertices: usize, views: usize) {
    let r = &mut generator.random;
    let first_record = 16 + 24 * vertices;
    match r.below(14) {
        0 => bytes.truncate(bytes.len().saturating_sub(1)),
        1 => bytes.push(0),
        2 => bytes.truncate(r.below(bytes.len() + 1)),
        3 => bytes.truncate(r.below(17)),
        4 => {
            let longer = r.pick(&[LONGEST, LONGEST + 1, LONGEST + 64, 70_000, 200_000]);
            bytes.resize(longer, 0);
        }
        5 | 6 => {
            // A header field, a little off or anything.
            let place = r.below(16);
            if let Some(byte) = bytes.get_mut(place) {
                *byte = match r.below(3) {
                    0 => byte.wrapping_add(1),
                    1 => byte.wrapping_sub(1),
                    _ => r.bits() as u8,
                };
            }
        }
        7 | 8 if views > 0 => {
            // The direction of one record.
            let place = first_record + RECORD_BYTES * r.below(views) + 56 + r.below(4);
            if let Some(byte) = bytes.get_mut(place) {
                *byte = r.pick(&[0, 1, 2, 4, 128, 255]);
            }
        }
        9 | 10 => {
            // A number of the outline or of a record.
            let numbers: Vec<usize> = (16..first_record).step_by(8).collect();
            let in_records = (0..views)
                .flat_map(|k| (8..56).step_by(8).map(move |at| first_record + 64 * k + at));
            let places: Vec<usize> = if r.chance(50) {
                numbers
            } else {
                in_records.collect()
            };
            if places.is_empty() {
                return;
            }
            let place = r.pick(&places);
            let x = r.pick(&[
                f64::NAN,
                f64::INFINITY,
                f64::NEG_INFINITY,
                1e6,
                1e6f64.next_up(),
                1.0,
                -1f64.next_up(),
                -0.0,
                f64::from_bits(1),
            ]);
            if let Some(number) = bytes.get_mut(place..place + 8) {
                number.copy_from_slice(&x.to_le_bytes());
            }
        }
        11 if views > 0 => {
            // An index or offset of one record.
            let place = first_record + RECORD_BYTES * r.below(views) + 4 * r.below(2);
            let count = vertices as u32;
            let x = r.pick(&[0, count.wrapping_sub(1), count, count + 1, u32::MAX]);
            if let Some(field) = bytes.get_mut(place..place + 4) {
                field.copy_from_slice(&x.to_le_bytes());
            }
        }
        _ => {
            if !bytes.is_empty() {
                let place = r.below(bytes.len());
                bytes[place] ^= 1 << r.below(8);
            }
        }
    }
}

/// All that a program prints when its standard input is these bytes.
pub fn printed(program: &Path, bytes: &[u8]) -> Vec<u8> {
    let mut child = command(program)
        .stdin(Stdio::piped())
        .stdout(Stdio::piped())
        .spawn()
        .unwrap_or_else(|error| panic!("{}: {error}", program.display()));
    let mut input = child.stdin.take().expect("standard input is piped");
    // Written beside the reading, since a program may print before it has read all.
    let output = thread::scope(|scope| {
        scope.spawn(move || match input.write_all(bytes) {
            // A program may stop reading once it knows its answer.
            Err(error) if error.kind() != ErrorKind::BrokenPipe => panic!("{error}"),
            _ => {}
        });
        child.wait_with_output()
    });
    output.expect("the program can be waited for").stdout
}

/// Compares some sheets, the largest among them.
pub fn compare_sheets(
    program: impl Fn(&[u8]) -> Vec<u8>,
    seed: u64,
    sheets: u64,
    report: &mut Report,
) {
    let mut generator = Generator::new(seed);
    for k in 0..sheets {
        let bytes = if k == 0 {
            largest_sheet()
        } else {
            sheet(&mut generator)
        };
        report.judge_sheet(&bytes, &sheet_text(&bytes), &program(&bytes));
    }
}

/// The program `sheet` that is judged: `BISQUEFERN_SHEET`, else target/bin/sheet of the repository; or what to do where
/// it is missing.
pub fn sheet_program() -> Result<PathBuf, String> {
    let (program, reason) = match env::var_os("BISQUEFERN_SHEET") {
        Some(path) => (PathBuf::from(path), "BISQUEFERN_SHEET names it"),
        None => (
            repository().join("target/bin/sheet"),
            "run tests/build sheet first",
        ),
    };
    if program.exists() {
        Ok(program)
    } else {
        Err(format!("{} is missing: {reason}", program.display()))
    }
}
