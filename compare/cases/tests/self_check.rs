//! The comparison itself: it reaches everything document 01 names, and finds nothing between the oracle and itself.

use cases::compare::compare_calls;
use cases::generate::Generator;
use cases::report::Report;
use cases::sheets::compare_sheets;
use cases::splits::{LONG, compare_splits, stay};
use oracle::sheet::sheet_text;
use oracle::{LINE_LIMIT, Oracle};

#[test]
fn every_answer_refusal_and_verdict_is_reached() {
    let mut report = Report::default();
    compare_calls(&Oracle, 1, 200_000, &mut report);
    compare_sheets(sheet_text, 2, 400, &mut report);
    println!("{}{}", report.table(), report.last_line());
    assert_eq!(report.gaps(), Vec::<String>::new());
    assert_eq!(report.different, 0, "{:?}", report.shown);
}

/// At the default limit the oracle runs the text over f64, at others over numbers of its own. These are held to f64 here: the
/// case gets another limit, so that they are used, and that is then taken for the default one.
#[test]
fn the_numbers_of_other_limits_are_those_of_the_default() {
    let mut generator = Generator::new(7);
    let mut calls = [0; 19];
    for _ in 0..400_000 {
        let case = generator.case();
        if case.limit().is_none() {
            continue;
        }
        let (plain, other) = (case.at_limit(LINE_LIMIT), case.at_limit(1e-3));
        let found = oracle::all_default(|| other.run(&Oracle));
        assert!(found == plain.run(&Oracle), "{plain}");
        calls[case.call as usize] += 1;
    }
    assert!(
        calls[3..14].iter().all(|count| *count > 10_000),
        "{calls:?}"
    );
}

#[test]
fn rows_of_splits_meet_what_they_should() {
    let mut report = Report::default();
    let splits = compare_splits(&Oracle, 6, 2_000_000, &mut report);
    print!("{splits}");
    assert_eq!(report.different, 0, "{:?}", report.shown);
    assert!(splits.steps >= 2_000_000 && splits.longest == LONG);
    assert!(splits.arcs > splits.steps / 2);
    assert!(splits.turned > 10_000 && splits.refused > 10_000);
    assert!(splits.straightened > 10_000);
}

#[test]
fn an_ulp_over_the_half_circle_is_seen() {
    let over = 1f64.next_up();
    assert!(stay(&[0.0, 0.0, -1.0, 0.0, 0.0, 1.0]));
    for bulge in [over, -over, f64::NAN, f64::INFINITY] {
        assert!(!stay(&[0.0, 0.0, bulge, 0.0, 0.0, 0.0]));
        assert!(!stay(&[0.0, 0.0, 0.0, 0.0, 0.0, bulge]));
    }
}
