//! Measures the largest sheet, the program `sheet` against the Rust one: `largest [PROGRAM]`.
//!
//! PROGRAM is another build of `sheet`. On another processor than x86-64 it must be named, and be for that processor.

use cases::largest::{print_rows, rust_sheet_program};
use cases::sheets::sheet_program;
use cases::start::or_end;
use std::env;
use std::path::PathBuf;

fn main() {
    let words: Vec<PathBuf> = env::args_os().skip(1).map(PathBuf::from).collect();
    let ours = or_end(match &words[..] {
        [] if cfg!(target_arch = "x86_64") => sheet_program(),
        [] => Err(
            "largest: target/bin/sheet is for x86-64, and a time under an emulator says nothing: name a program"
                .to_string(),
        ),
        [program] if program.is_file() => Ok(program.clone()),
        _ => Err("usage: largest [PROGRAM], another build of sheet".to_string()),
    });
    let programs = [ours, or_end(rust_sheet_program())];
    println!(
        "{:48} {:>12} {:>12} {:>7}",
        "the largest sheet", "ours ns", "Rust ns", "ratio"
    );
    print_rows(&programs);
}
