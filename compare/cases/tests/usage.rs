//! Called with anything but what they take, the programs print their usage and end with status 2.

use cases::start::expect_end;

#[test]
fn sheets() {
    let usage = "usage: sheets [SHEETS [SEED]], each a whole number\n";
    for words in [
        &["abc"][..],
        &["-1"],
        &["1.5"],
        &[""],
        &["1", "abc"],
        &["1", "2", "3"],
        &["18446744073709551616"],
    ] {
        expect_end(env!("CARGO_BIN_EXE_sheets"), words, usage);
    }
}

#[test]
fn largest() {
    let usage = "usage: largest [PROGRAM], another build of sheet\n";
    for words in [&["absent"][..], &["absent", "absent"], &["."]] {
        expect_end(env!("CARGO_BIN_EXE_largest"), words, usage);
    }
}

#[test]
fn vectors() {
    let usage =
        "usage: vectors [--roots] CASES_FILE EXPECTED_FILE; --roots writes only the square roots\n";
    for words in [
        &[][..],
        &["cases"],
        &["--roots", "cases"],
        &["--root", "expected"],
        &["--root", "cases", "expected"],
        &["cases", "expected", "3"],
    ] {
        expect_end(env!("CARGO_BIN_EXE_vectors"), words, usage);
    }
}
