//! A short comparison of the static library and the program `sheet` with the oracle.
//!
//! `BISQUEFERN_ROUNDS` repeats it that often, each time from another seed.

use cases::compare::compare_calls;
use cases::report::Report;
use cases::sheets::{compare_sheets, printed, sheet_program};
use cases::splits::compare_splits;
use cases::stored;
use face::Bisquefern;
use oracle::Oracle;

fn rounds() -> u64 {
    match std::env::var("BISQUEFERN_ROUNDS") {
        Ok(word) => word.parse().expect("BISQUEFERN_ROUNDS is a whole number"),
        Err(_) => 1,
    }
}

fn expect_no_difference(report: &Report) {
    println!("{}", report.last_line());
    assert_eq!(report.different, 0, "{}", report.shown.join("\n"));
}

#[test]
fn calls_sheets_and_rows_of_splits() {
    let program = sheet_program().unwrap();
    let mut report = Report::default();
    for round in 0..rounds() {
        compare_calls(&Bisquefern, 100 + round, 300_000, &mut report);
        compare_sheets(
            |bytes| printed(&program, bytes),
            200 + round,
            400,
            &mut report,
        );
        let splits = compare_splits(&Bisquefern, 300 + round, 60_000, &mut report);
        print!("{splits}");
    }
    expect_no_difference(&report);
    assert_eq!(report.gaps(), Vec::<String>::new());
}

#[test]
fn the_stored_list() {
    let mut report = Report::default();
    for case in stored::all() {
        report.judge(&case, &case.run(&Oracle), &case.run(&Bisquefern));
    }
    expect_no_difference(&report);
}
