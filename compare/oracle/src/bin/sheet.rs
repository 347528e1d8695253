//! The program `sheet`, over the published text: standard input to standard output.

use oracle::sheet::{LONGEST, write_sheet};
use std::io::{self, BufWriter, Read, Write};

fn main() -> io::Result<()> {
    let mut bytes = Vec::with_capacity(LONGEST + 1);
    io::stdin()
        .lock()
        .take(LONGEST as u64 + 1)
        .read_to_end(&mut bytes)?;
    let mut out = BufWriter::with_capacity(1 << 16, io::stdout().lock());
    write_sheet(&bytes, &mut out)?;
    out.flush()
}
