//! The largest sheet, the program that is judged against the Rust one: time, memory and stack.

use crate::sheets::largest_sheet;
use oracle::sheet::sheet_text;
use std::env;
use std::fs::{self, File};
use std::io::{self, Read};
use std::path::{Path, PathBuf};
use std::process::{Command, Stdio};
use std::time::Instant;

const ROUNDS: usize = 21;
/// More than a pipe holds: with so many bytes to come, a program is still writing.
const TO_COME: usize = 100_000;

pub fn median(mut times: Vec<f64>) -> f64 {
    times.sort_by(f64::total_cmp);
    times[times.len() / 2]
}

pub fn print_row(name: &str, ours: f64, rust: f64) {
    println!("{name:48} {ours:12.1} {rust:12.1} {:7.2}", ours / rust);
}

/// Three rows. Times are medians, the two programs in turn and the output thrown away; memory is the most that was
/// resident, and the stack as far as it has grown, both as the kernel tells them.
pub fn print_rows(programs: &[PathBuf; 2]) {
    let sheet = largest_sheet();
    let length = sheet_text(&sheet).len();
    let input = env::temp_dir().join(format!("largest-sheet-{}", std::process::id()));
    fs::write(&input, sheet).expect("the sheet can be written");
    let mut times = [Vec::new(), Vec::new()];
    for _ in 0..ROUNDS {
        for (program, times) in programs.iter().zip(&mut times) {
            times.push(run_time(program, &input));
        }
    }
    let [ours, rust] = times.map(median);
    print_row("sheet, 2,000 vertices, 256 cut views", ours, rust);
    let [ours, rust] = [0, 1].map(|which| sizes(&programs[which], &input, length));
    print_row("the same: memory, KiB", ours[0], rust[0]);
    print_row("the same: stack, KiB", ours[1], rust[1]);
    fs::remove_file(&input).expect("the sheet can be removed");
}

fn on_input(program: &Path, input: &Path) -> Command {
    let mut command = Command::new(program);
    command.stdin(File::open(input).expect("the sheet can be read"));
    command
}

/// In nanoseconds.
fn run_time(program: &Path, input: &Path) -> f64 {
    let mut command = on_input(program, input);
    let start = Instant::now();
    let status = command.stdout(Stdio::null()).status();
    let time = start.elapsed();
    assert!(status.is_ok_and(|status| status.success()));
    time.as_nanos() as f64
}

/// The kernel's VmHWM and VmStk of a program that has printed nearly all of its text.
fn sizes(program: &Path, input: &Path, length: usize) -> [f64; 2] {
    let child = on_input(program, input).stdout(Stdio::piped()).spawn();
    let mut child = child.expect("the program can be started");
    let mut output = child.stdout.take().expect("standard output is piped");
    let mut text = vec![0; length - TO_COME];
    output.read_exact(&mut text).expect("the text is as long");
    let status = fs::read_to_string(format!("/proc/{}/status", child.id())).expect("Linux");
    io::copy(&mut output, &mut io::sink()).expect("the rest can be read");
    child.wait().expect("the program can be waited for");
    ["VmHWM:", "VmStk:"].map(|name| {
        let line = status.lines().find_map(|line| line.strip_prefix(name));
        let kib = line.and_then(|line| line.trim().strip_suffix(" kB"));
        kib.and_then(|kib| kib.parse().ok()).expect("a size in kB")
    })
}

/// The program `sheet` in Rust, built beside this one.
pub fn rust_sheet_program() -> Result<PathBuf, String> {
    let this = env::current_exe().unwrap();
    let target = this.ancestors().nth(2).unwrap();
    let status = Command::new(env::var_os("CARGO").unwrap_or("cargo".into()))
        .args(["build", "--quiet", "--release", "-p", "oracle"])
        .args(["--bin", "sheet", "--target-dir"])
        .arg(target)
        .current_dir(env!("CARGO_MANIFEST_DIR"))
        .status();
    if status.is_ok_and(|status| status.success()) {
        Ok(target.join("release/sheet"))
    } else {
        Err(
            "the Rust program sheet cannot be built: run cargo build --release -p oracle first"
                .to_string(),
        )
    }
}
