//! The job sheet, read from document 01's description, over the published text at the default line limit.

use crate::checks::{MOST_VERTICES, check, outline_in_range};
use crate::record::{RECORD_BYTES, cut_number, f64_at, fields, u32_at, well_formed};
use crate::view::{Outline, is_cut, validate_in, verdict_number, vertices};
use crate::{AABB, LINE_LIMIT, PlineVertex, refusal};
use cavalier_contours::polyline::{PlineSource, seg_bounding_box};
use std::io::{self, Write};

const HEADER_BYTES: usize = 16;
const VERTEX_BYTES: usize = 24;
const MOST_VIEWS: usize = 256;

/// The longest sheet there is.
pub const LONGEST: usize = HEADER_BYTES + VERTEX_BYTES * MOST_VERTICES + RECORD_BYTES * MOST_VIEWS;

/// A sheet that is not refused.
struct Sheet<'a> {
    closed: bool,
    /// Flag bit 1, which once asked for another box: now a word ends the box line.
    retired: bool,
    outline: Vec<f64>,
    records: &'a [u8],
}

fn u16_at(bytes: &[u8], at: usize) -> usize {
    usize::from(u16::from_le_bytes([bytes[at], bytes[at + 1]]))
}

impl<'a> Sheet<'a> {
    /// 11 over the whole sheet, then 12, then 1 over its vertices.
    fn read(bytes: &'a [u8]) -> Result<Self, u8> {
        check(bytes.len() >= HEADER_BYTES, refusal::SHEET)?;
        let flags = u16_at(bytes, 2);
        let vertex_count = u16_at(bytes, 4);
        let view_count = u16_at(bytes, 6);
        let view_offset = HEADER_BYTES + VERTEX_BYTES * vertex_count;
        check(
            u16_at(bytes, 0) == 1
                && flags <= 3
                && vertex_count <= MOST_VERTICES
                && view_count <= MOST_VIEWS
                && u32_at(bytes, 8) as usize == HEADER_BYTES
                && u32_at(bytes, 12) as usize == view_offset
                && bytes.len() == view_offset + RECORD_BYTES * view_count,
            refusal::SHEET,
        )?;

        let records = &bytes[view_offset..];
        check(
            records.chunks_exact(RECORD_BYTES).all(well_formed),
            refusal::RECORD,
        )?;

        let outline: Vec<f64> = bytes[HEADER_BYTES..view_offset]
            .chunks_exact(8)
            .map(|number| f64_at(number, 0))
            .collect();
        check(outline_in_range(&outline), refusal::NUMBER)?;

        Ok(Sheet {
            closed: flags & 1 != 0,
            retired: flags & 2 != 0,
            outline,
            records,
        })
    }

    /// The box over all segments, the closing one only if closed. `None` under two vertices.
    fn bounds(&self, outline: &Outline) -> Option<AABB> {
        let count = outline.vertex_count();
        if count < 2 {
            return None;
        }
        let segments = if self.closed { count } else { count - 1 };
        let boxes = (0..segments).map(|k| {
            let v1 = outline.at(k);
            let v2 = outline.at(outline.next_wrapping_index(k));
            seg_bounding_box(v1, v2)
        });
        boxes.reduce(|edges, later| AABB {
            min_x: if later.min_x < edges.min_x {
                later.min_x
            } else {
                edges.min_x
            },
            min_y: if later.min_y < edges.min_y {
                later.min_y
            } else {
                edges.min_y
            },
            max_x: if later.max_x > edges.max_x {
                later.max_x
            } else {
                edges.max_x
            },
            max_y: if later.max_y > edges.max_y {
                later.max_y
            } else {
                edges.max_y
            },
        })
    }

    fn write(&self, out: &mut impl Write) -> io::Result<()> {
        let outline = Outline::new(&self.outline, self.closed, 0).expect("the sheet was checked");
        writeln!(
            out,
            "outline {} {} {}",
            outline.vertex_count(),
            self.records.len() / RECORD_BYTES,
            if self.closed { "closed" } else { "open" }
        )?;

        match self.bounds(&outline) {
            None => write!(out, "box none")?,
            Some(b) => write!(
                out,
                "box {:016x} {:016x} {:016x} {:016x}",
                b.min_x.to_bits(),
                b.min_y.to_bits(),
                b.max_x.to_bits(),
                b.max_y.to_bits()
            )?,
        }
        writeln!(out, "{}", if self.retired { " retired" } else { "" })?;

        for (k, record) in self.records.chunks_exact(RECORD_BYTES).enumerate() {
            let cut_number = cut_number(record);
            let record = fields(record);
            match validate_in::<f64>(&outline, &record, LINE_LIMIT) {
                Err(refusal) => writeln!(out, "view {k} refused {refusal}")?,
                Ok(verdict) if is_cut(&outline, &record, &verdict) => {
                    let count = record.end_index_offset + 2;
                    writeln!(out, "view {k} 7 cut {count} {cut_number}")?;
                    for (position, vertex) in vertices(&outline, record).enumerate() {
                        write_vertex(out, position, vertex)?;
                    }
                }
                Ok(verdict) => {
                    let number = verdict_number(&verdict);
                    writeln!(out, "view {k} {number} hold 0 {cut_number}")?;
                }
            }
        }
        Ok(())
    }
}

/// One line of a list. Nearly all of a sheet's text is such lines, so this one is written by hand.
fn write_vertex(out: &mut impl Write, position: usize, v: PlineVertex) -> io::Result<()> {
    const DIGITS: &[u8; 16] = b"0123456789abcdef";
    let mut line = *b"0000 0000000000000000 0000000000000000 0000000000000000\n";

    let mut rest = position;
    let mut start = 4;
    loop {
        start -= 1;
        line[start] = DIGITS[rest % 10];
        rest /= 10;
        if rest == 0 {
            break;
        }
    }

    for (field, number) in line[5..].chunks_exact_mut(17).zip([v.x, v.y, v.bulge]) {
        for (pair, byte) in field
            .chunks_exact_mut(2)
            .zip(number.to_bits().to_be_bytes())
        {
            pair[0] = DIGITS[usize::from(byte >> 4)];
            pair[1] = DIGITS[usize::from(byte & 15)];
        }
    }
    out.write_all(&line[start..])
}

/// Writes all that the program `sheet` prints for these bytes.
pub fn write_sheet(bytes: &[u8], out: &mut impl Write) -> io::Result<()> {
    match Sheet::read(bytes) {
        Ok(sheet) => sheet.write(out),
        Err(refusal) => writeln!(out, "refused {refusal}"),
    }
}

/// All that the program `sheet` prints for these bytes.
pub fn sheet_text(bytes: &[u8]) -> Vec<u8> {
    let mut text = Vec::new();
    write_sheet(bytes, &mut text).expect("a vector takes every write");
    text
}
