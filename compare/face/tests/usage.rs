//! Called with anything but what they take, the programs print their usage and end with status 2.

use cases::start::expect_end;

#[test]
fn differ() {
    let usage = "usage: differ [CALLS [SHEETS [STEPS [SEED]]]], each a whole number\n";
    for words in [
        &["abc"][..],
        &["-1"],
        &["1", "abc"],
        &["1", "1", "abc"],
        &["1", "1", "1", "abc"],
        &["1", "1", "1", "1", "1"],
    ] {
        expect_end(env!("CARGO_BIN_EXE_differ"), words, usage);
    }
}

#[test]
fn bench() {
    let usage = "usage: bench, with nothing behind it\n";
    for words in [&["abc"][..], &["1"]] {
        expect_end(env!("CARGO_BIN_EXE_bench"), words, usage);
    }
}
