//! Demand 3: rows of reversals and trims on a record, held against the same steps on the plain list.

use crate::case::{Call, Case, Outcome};
use crate::generate::Generator;
use crate::report::Report;
use oracle::record::{RECORD_BYTES, encode};
use oracle::{Library, Oracle, PlineVertex, plain, view};

/// Runs one row. Each step's record is the library's own, and its whole list must be the plain list.
pub fn compare_row(library: &impl Library, generator: &mut Generator, report: &mut Report) {
    let outline = generator.outline();
    let record = generator.record(&outline);
    let Ok(mut list) = view::list(&outline, &record) else {
        return;
    };
    let equal_bulges = record.updated_start.bulge.to_bits() == record.updated_end_bulge.to_bits();
    if record.end_index_offset == 0 && !equal_bulges {
        return;
    }

    let cut_number = generator.cut_number();
    let mut record = encode(&record, cut_number).to_vec();
    for _ in 0..1 + generator.random.below(8) {
        let step = if generator.random.chance(50) {
            list = plain::reverse(&list);
            let case = Case::new(Call::ViewReverse).numbers(&outline);
            case.bytes(&record).room(RECORD_BYTES)
        } else {
            let offset = list.len() - 2;
            let (i, j) = (generator.position(offset), generator.position(offset));
            let trimmed = plain::trim(&list, i as usize, j as usize);
            let case = Case::new(Call::ViewTrim).numbers(&outline);
            let case = case.bytes(&record).whole(i).whole(j).room(RECORD_BYTES);
            let Some(trimmed) = trimmed else {
                // A refused trim changes nothing: the row goes on with the record as it was.
                report.judge(&case, &case.run(&Oracle), &case.run(library));
                continue;
            };
            list = trimmed;
            case
        };
        let stepped = step.run(library);
        if !report.judge(&step, &step.run(&Oracle), &stepped) {
            return;
        }
        let words = stepped.written(step.call);
        record = words.iter().flat_map(|word| word.to_le_bytes()).collect();
        if record[60..] != cut_number.to_le_bytes() {
            report.differ(&format!("{step}: another cut number"));
        }

        let listing = Case::new(Call::ViewList).numbers(&outline).bytes(&record);
        let listing = listing.room(3 * list.len()).room(1);
        let listed = listing.run(library);
        if !report.judge(&listing, &listing.run(&Oracle), &listed) {
            return;
        }
        if !lists(&listed, &list) {
            report.differ(&format!(
                "{listing}: not what the steps do to the plain list"
            ));
        }
    }
}

/// Whether a listing answered exactly these vertices.
fn lists(listed: &Outcome, list: &[PlineVertex]) -> bool {
    let vertices = list.iter().flat_map(|v| [v.x, v.y, v.bulge]);
    let mut words: Vec<u64> = vertices.map(f64::to_bits).collect();
    words.push(list.len() as u64);
    listed.refusal == 0 && listed.written(Call::ViewList) == words
}
