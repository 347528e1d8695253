//! Compares the static library and the program `sheet` with the oracle: `differ [CALLS [SHEETS [STEPS [SEED]]]]`,
//! STEPS of rows of splits.
//!
//! Exit status 1 where anything differs, or where some answer, refusal, verdict or kind of line limit was not reached.

use cases::compare::compare_calls;
use cases::report::Report;
use cases::sheets::{compare_sheets, printed, sheet_program};
use cases::splits::compare_splits;
use cases::start::{numbers, or_end};
use face::Bisquefern;
use std::process::ExitCode;

fn main() -> ExitCode {
    let [calls, sheets, steps, seed] = numbers(
        "differ [CALLS [SHEETS [STEPS [SEED]]]], each a whole number",
        [5_000_000, 2_500, 3_000_000, 1],
    );
    let program = or_end(sheet_program());

    let mut report = Report::default();
    compare_calls(&Bisquefern, seed, calls, &mut report);
    compare_sheets(|bytes| printed(&program, bytes), seed, sheets, &mut report);
    let splits = compare_splits(&Bisquefern, seed, steps, &mut report);

    print!("{}{splits}", report.table());
    for difference in &report.shown {
        println!("different: {difference}");
    }
    let gaps = report.gaps();
    for gap in &gaps {
        println!("not as document 01 has it: {gap}");
    }
    println!("{}", report.last_line());
    if report.different == 0 && gaps.is_empty() {
        ExitCode::SUCCESS
    } else {
        ExitCode::FAILURE
    }
}
