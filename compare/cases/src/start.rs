//! What a program is called with. Where it cannot do its work, it says why in one line and ends with status 2.

use std::env;
use std::process::{Command, exit};

/// What is there, or the end of the program for the reason given.
pub fn or_end<T>(found: Result<T, String>) -> T {
    found.unwrap_or_else(|reason| {
        eprintln!("{reason}");
        exit(2)
    })
}

/// The whole numbers that the program was called with, those left out as here. Any other word ends it.
pub fn numbers<const N: usize>(usage: &str, left_out: [u64; N]) -> [u64; N] {
    or_end(called_with(left_out).ok_or_else(|| format!("usage: {usage}")))
}

fn called_with<const N: usize>(left_out: [u64; N]) -> Option<[u64; N]> {
    let mut numbers = left_out;
    for (k, word) in env::args_os().skip(1).enumerate() {
        *numbers.get_mut(k)? = word.to_str()?.parse().ok()?;
    }
    Some(numbers)
}

/// For tests: called with these words, a program must say only this and end with status 2.
pub fn expect_end(program: &str, words: &[&str], reason: &str) {
    let mut program = Command::new(program);
    let output = program
        .args(words)
        .current_dir(env::temp_dir())
        .output()
        .unwrap();
    assert_eq!(
        String::from_utf8(output.stderr).unwrap(),
        reason,
        "{words:?}"
    );
    assert_eq!(output.status.code(), Some(2), "{words:?}");
    assert!(output.stdout.is_empty(), "{words:?}");
}
