//! Cases for every call and whole sheets, made from a seed, and the comparison of a library with the oracle.
//!
//! Nothing here needs the library that is judged: it is anything that implements [`oracle::Library`].
#![forbid(unsafe_code)]

use std::path::Path;
use std::process::Command;

pub mod case;
pub mod compare;
pub mod former;
pub mod generate;
pub mod largest;
pub mod random;
pub mod report;
pub mod rows;
pub mod sheets;
pub mod splits;
pub mod start;
pub mod stored;

/// The repository that this folder belongs to.
pub fn repository() -> &'static Path {
    let folder = Path::new(env!("CARGO_MANIFEST_DIR"));
    folder.ancestors().nth(2).expect("this is compare/cases")
}

/// The command that runs a program of the repository. These are for x86-64; on another processor `tests/x86_64` runs them.
pub fn command(program: &Path) -> Command {
    if cfg!(target_arch = "x86_64") {
        return Command::new(program);
    }
    let mut command = Command::new(repository().join("tests/x86_64"));
    command.arg(program);
    command
}
