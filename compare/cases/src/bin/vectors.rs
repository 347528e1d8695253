//! Writes a list of cases and the oracle's answers: `vectors [--roots] CASES_FILE EXPECTED_FILE`.
//!
//! It is the whole list, which `replay` stores; with `--roots` only the square roots, with which that list begins. The
//! form of both files is described in `cases::case`.

use cases::start::or_end;
use cases::stored;
use std::{env, fs};

fn main() {
    let arguments: Vec<String> = env::args().skip(1).collect();
    let arguments: Vec<&str> = arguments.iter().map(String::as_str).collect();
    let is_file = |word: &str| !word.starts_with('-');
    let (cases, cases_file, answers_file) = or_end(match arguments[..] {
        ["--roots", cases, answers] if is_file(cases) && is_file(answers) => {
            Ok((stored::roots(), cases, answers))
        }
        [cases, answers] if is_file(cases) && is_file(answers) => {
            Ok((stored::all(), cases, answers))
        }
        _ => Err(
            "usage: vectors [--roots] CASES_FILE EXPECTED_FILE; --roots writes only the square roots"
                .to_string(),
        ),
    });

    let (stored, answers) = stored::files(&cases);
    for (file, contents) in [
        (cases_file, stored.as_slice()),
        (answers_file, answers.as_bytes()),
    ] {
        or_end(fs::write(file, contents).map_err(|error| format!("{file}: {error}")));
    }
    println!("{} cases", cases.len());
}
