//! "Every old sheet reads the same": sheets that `cases` drew just before the limit of 1,024 vertices was raised, its largest
//! one first, and what they printed then.
//!
//! `cases/old/sheets` has one after the other, each behind its length (4 bytes, little-endian). `cases/old/texts` has a
//! line for each: the length of its text, the text's 64-bit FNV-1a hash, and its first line. The oracle printed them
//! under the old limit, and so did the program. Nothing makes them anew: where a text gets a field more, take that out before it
//! is held to its line, as `as_then` does for flag bit 1 and for the cut number.

use cases::former::former_box_line;
use cases::repository;
use cases::sheets::{printed, sheet_program};
use oracle::record::{RECORD_BYTES, cut_number};
use oracle::sheet::sheet_text;
use std::fs;

fn stored(file: &str) -> Vec<u8> {
    let path = repository().join("compare/cases/old").join(file);
    fs::read(&path).unwrap_or_else(|error| panic!("{}: {error}", path.display()))
}

fn sheets() -> Vec<Vec<u8>> {
    let stored = stored("sheets");
    let mut rest = &stored[..];
    let mut sheets = Vec::new();
    while let Some((length, behind)) = rest.split_first_chunk() {
        let (sheet, behind) = behind.split_at(u32::from_le_bytes(*length) as usize);
        sheets.push(sheet.to_vec());
        rest = behind;
    }
    assert!(rest.is_empty());
    sheets
}

/// A text's line in `cases/old/texts`.
fn told(text: &[u8]) -> String {
    let hash = text.iter().fold(0xcbf2_9ce4_8422_2325, |hash, byte| {
        (hash ^ u64::from(*byte)).wrapping_mul(0x100_0000_01b3)
    });
    let first = text.split(|byte| *byte == b'\n').next().unwrap_or_default();
    format!("{} {hash:016x} {}", text.len(), first.escape_ascii())
}

/// Whether flag bit 1 is set.
fn has_bit_1(bytes: &[u8]) -> bool {
    bytes.get(2).is_some_and(|flags| flags & 2 != 0)
}

/// Whether a sheet that is not refused 11 has a record with a cut number.
fn has_number(bytes: &[u8]) -> bool {
    let vertices = usize::from(u16::from_le_bytes([bytes[4], bytes[5]]));
    let mut records = bytes[16 + 24 * vertices..].chunks_exact(RECORD_BYTES);
    records.any(|record| cut_number(record) != 0)
}

/// A view's line as it was without a cut number, whose bytes were reserved: 0 in every record that was read. Other lines
/// stay.
fn unnumbered(line: &str) -> &str {
    if !line.starts_with("view") || line.contains("refused") {
        return line;
    }
    line.strip_suffix(" 0").expect("no cut number")
}

/// A text as it was: refused 12 for what are cut numbers now, and no number in a view's line; before flag bit 1 was retired
/// without its word, and where there is a box, with the one that the bit asked for then.
fn as_then(bytes: &[u8], text: &str) -> String {
    if text != "refused 11\n" && has_number(bytes) {
        return "refused 12\n".to_string();
    }
    let [outline, line, views] = text.splitn(3, '\n').collect::<Vec<_>>()[..] else {
        // A refused sheet has one line.
        return text.to_string();
    };
    let without_word = line.strip_suffix(" retired");
    assert_eq!(without_word.is_some(), has_bit_1(bytes), "{line}");
    let line = match without_word {
        None => line.to_string(),
        Some("box none") => "box none".to_string(),
        Some(_) => former_box_line(bytes),
    };
    let views: Vec<&str> = views.split('\n').map(unnumbered).collect();
    format!("{outline}\n{line}\n{}", views.join("\n"))
}

#[test]
fn old_sheets_read_the_same() {
    let texts = String::from_utf8(stored("texts")).unwrap();
    let (sheets, texts) = (sheets(), texts.lines().collect::<Vec<_>>());
    assert_eq!((sheets.len(), texts.len()), (204, 204));
    // Flag bit 1 with a box, with none, and on a refused sheet; bytes that are cut numbers now, in a sheet that is read.
    let mut with_bit_1 = [0; 3];
    let mut numbered = 0;
    for (k, (bytes, line)) in sheets.iter().zip(&texts).enumerate() {
        let vertices = bytes.get(4..6).map(|v| u16::from_le_bytes([v[0], v[1]]));
        assert!(vertices.is_none_or(|count| count <= 1024), "sheet {k}");
        let text = String::from_utf8(sheet_text(bytes)).unwrap();
        assert_eq!(told(as_then(bytes, &text).as_bytes()), *line, "sheet {k}");
        if text.starts_with("outline") && has_number(bytes) {
            numbered += 1;
        }
        if has_bit_1(bytes) {
            let kind = match text.lines().nth(1) {
                Some("box none retired") => 1,
                Some(_) => 0,
                None => 2,
            };
            with_bit_1[kind] += 1;
        }
    }
    assert_eq!(with_bit_1, [89, 1, 15]);
    assert_eq!(numbered, 13);
    // Both ends of the old range, and each refusal.
    let first: Vec<&str> = texts
        .iter()
        .filter_map(|line| line.splitn(3, ' ').nth(2))
        .collect();
    for line in [
        "outline 0 0 closed",
        "outline 1024 256 closed",
        "refused 1",
        "refused 11",
        "refused 12",
    ] {
        assert!(first.contains(&line), "{line}");
    }
}

#[test]
fn the_program_reads_them_as_the_oracle_does() {
    let program = sheet_program().unwrap();
    for (k, bytes) in sheets().iter().enumerate() {
        assert!(printed(&program, bytes) == sheet_text(bytes), "sheet {k}");
    }
}
