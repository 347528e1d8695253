//! Compares the program `sheet` alone with the oracle, with no static library at hand: `sheets [SHEETS [SEED]]`.
//!
//! Exit status 1 where any sheet's text differs.

use cases::report::Report;
use cases::sheets::{compare_sheets, printed, sheet_program};
use cases::start::{numbers, or_end};
use std::process::ExitCode;

fn main() -> ExitCode {
    let [sheets, seed] = numbers("sheets [SHEETS [SEED]], each a whole number", [2_500, 1]);
    let program = or_end(sheet_program());

    let mut report = Report::default();
    compare_sheets(|bytes| printed(&program, bytes), seed, sheets, &mut report);
    for difference in &report.shown {
        println!("different: {difference}");
    }
    println!("{}", report.last_line());
    if report.different == 0 {
        ExitCode::SUCCESS
    } else {
        ExitCode::FAILURE
    }
}
