//! The comparison of a library with the oracle, call by call.

use crate::generate::Generator;
use crate::report::Report;
use crate::rows::compare_row;
use oracle::{Library, Oracle};

/// Compares at least `calls` calls, rows of demand 3 among them.
pub fn compare_calls(library: &impl Library, seed: u64, calls: u64, report: &mut Report) {
    let mut generator = Generator::new(seed);
    let end = report.calls + calls;
    while report.calls < end {
        for _ in 0..50 {
            let case = generator.case();
            report.judge(&case, &case.run(&Oracle), &case.run(library));
        }
        compare_row(library, &mut generator, report);
    }
}
