//! The sheets that the job sheet's rules name, one by one. What each must print is written here by hand from document 01
//! where that is short; the program and the oracle must both print it, and must agree where it is long.

use cases::sheets::{largest_outline, largest_sheet, printed, sheet_of, sheet_program, whole_view};
use oracle::sheet::{LONGEST, sheet_text};
use oracle::{PlineVertex, PlineViewData, Vector2};

/// A square of side 2, its second side a half circle.
const SQUARE: [f64; 12] = [0.0, 0.0, 0.0, 2.0, 0.0, 1.0, 2.0, 2.0, 0.0, 0.0, 2.0, 0.0];

/// Where the first record of a sheet over the square stands.
const RECORD: usize = 16 + 24 * 4;

fn square_sheet(flags: u16, change: impl Fn(&mut PlineViewData)) -> Vec<u8> {
    let mut record = whole_view(&SQUARE, 0);
    change(&mut record);
    sheet_of(&SQUARE, flags, &[(record, 0)])
}

/// Both must print this.
fn prints(name: &str, bytes: &[u8], text: &str) {
    let show = |out: Vec<u8>| String::from_utf8(out).expect("a sheet's text is ASCII");
    assert_eq!(show(sheet_text(bytes)), text, "the oracle: {name}");
    assert_eq!(
        show(printed(&sheet_program().unwrap(), bytes)),
        text,
        "the program: {name}"
    );
}

/// Both must print the same, which begins with this and has so many lines.
fn begins(name: &str, bytes: &[u8], start: &str, lines: usize) {
    let text = sheet_text(bytes);
    assert!(text.starts_with(start.as_bytes()), "the oracle: {name}");
    let count = text.iter().filter(|byte| **byte == b'\n').count();
    assert_eq!(count, lines, "the oracle's lines: {name}");
    assert!(
        printed(&sheet_program().unwrap(), bytes) == text,
        "the program: {name}"
    );
}

#[test]
fn sizes() {
    prints("no input", b"", "refused 11\n");
    prints(
        "no vertices",
        &sheet_of(&[], 0, &[]),
        "outline 0 0 open\nbox none\n",
    );
    prints(
        "no vertices, closed",
        &sheet_of(&[], 1, &[]),
        "outline 0 0 closed\nbox none\n",
    );
    prints(
        "one vertex",
        &sheet_of(&SQUARE[..3], 0, &[]),
        "outline 1 0 open\nbox none\n",
    );
    prints(
        "two vertices",
        &sheet_of(&SQUARE[..6], 0, &[]),
        "outline 2 0 open\nbox 0000000000000000 0000000000000000 4000000000000000 0000000000000000\n",
    );
    let outline = largest_outline();
    begins(
        "2,000 vertices",
        &sheet_of(&outline, 1, &[]),
        "outline 2000 0 closed\nbox ",
        2,
    );
    // One more than the limit that was.
    begins(
        "1,025 vertices",
        &sheet_of(&outline[..3 * 1025], 0, &[]),
        "outline 1025 0 open\nbox ",
        2,
    );
    let one_more = [&outline[..], &[0.0; 3]].concat();
    prints(
        "2,001 vertices",
        &sheet_of(&one_more, 1, &[]),
        "refused 11\n",
    );
    let records = vec![(whole_view(&SQUARE, 0), 0); 257];
    // Each view of the whole square from the middle of a side has 6 vertices.
    begins(
        "256 views",
        &sheet_of(&SQUARE, 1, &records[1..]),
        "outline 4 256 closed\n",
        2 + 256 * 7,
    );
    prints("257 views", &sheet_of(&SQUARE, 1, &records), "refused 11\n");
    begins(
        "the largest",
        &largest_sheet(),
        "outline 2000 256 closed\n",
        2 + 256 * 2003,
    );
}

#[test]
fn lengths() {
    let sound = square_sheet(1, |_| {});
    for cut in [
        1,
        63,
        64,
        65,
        sound.len() - 17,
        sound.len() - 16,
        sound.len() - 15,
    ] {
        prints("short", &sound[..sound.len() - cut], "refused 11\n");
    }
    for longer in [
        sound.len() + 1,
        sound.len() + 64,
        LONGEST,
        LONGEST + 1,
        200_000,
    ] {
        let mut bytes = sound.clone();
        bytes.resize(longer, 0);
        prints("long", &bytes, "refused 11\n");
    }
}

#[test]
fn flags_and_directions() {
    // Closed, the view of the whole square is cut; open, it is held, as it goes over the side that is not there.
    let corners = "0000000000000000 0000000000000000 4008000000000000 4000000000000000";
    for (flags, closed, word, lines) in [
        (0, "open", "", 3),
        (1, "closed", "", 9),
        (2, "open", " retired", 3),
        (3, "closed", " retired", 9),
    ] {
        let head = format!("outline 4 1 {closed}\nbox {corners}{word}\nview 0 7 ");
        begins("flags", &square_sheet(flags, |_| {}), &head, lines);
        begins(
            "inverted",
            &square_sheet(flags, |d| d.inverted_direction = true),
            &head,
            lines,
        );
    }
    for flags in [4, 5, 6, 7, 8, 0x100, 0x200, 0x8000, 0xffff] {
        prints(
            "an unknown flag",
            &square_sheet(flags, |_| {}),
            "refused 11\n",
        );
    }
}

#[test]
fn the_retired_flag() {
    // A circle of two half circles. Their chord is tilted, so the box that bit 1 once asked for would be larger.
    let circle = [0.0, 0.0, 1.0, 3.0, 4.0, 1.0];
    for (flags, vertices, text) in [
        (2, 0, "outline 0 0 open\nbox none retired\n"),
        (3, 0, "outline 0 0 closed\nbox none retired\n"),
        (2, 1, "outline 1 0 open\nbox none retired\n"),
        (3, 1, "outline 1 0 closed\nbox none retired\n"),
        (
            2,
            2,
            "outline 2 0 open\nbox 0000000000000000 bfe0000000000000 4010000000000000 4010000000000000 retired\n",
        ),
        (
            3,
            2,
            "outline 2 0 closed\nbox bff0000000000000 bfe0000000000000 4010000000000000 4012000000000000 retired\n",
        ),
        (4, 0, "refused 11\n"),
        (4, 1, "refused 11\n"),
        (4, 2, "refused 11\n"),
    ] {
        prints(
            &format!("flags {flags}, vertices {vertices}"),
            &sheet_of(&circle[..3 * vertices], flags, &[]),
            text,
        );
    }

    // Views follow as they do without the bit, up to the largest sheet.
    prints(
        "one vertex and a view",
        &sheet_of(&SQUARE[..3], 2, &[(whole_view(&SQUARE, 0), 0)]),
        "outline 1 1 open\nbox none retired\nview 0 1 hold 0 0\n",
    );
    let mut bytes = largest_sheet();
    let clear = String::from_utf8(sheet_text(&bytes)).unwrap();
    let (head, views) = clear.split_at(clear.find("\nview").unwrap());
    bytes[2] |= 2;
    let text = format!("{head} retired{views}");
    begins("the largest", &bytes, &text, 2 + 256 * 2003);

    // A refused sheet has no box line.
    let mut bytes = square_sheet(3, |_| {});
    bytes[16..24].copy_from_slice(&f64::NAN.to_le_bytes());
    prints("a number", &bytes, "refused 1\n");
    bytes[RECORD + 56] = 2;
    prints("a number and a record", &bytes, "refused 12\n");
    bytes.push(0);
    prints("a number, a record and the length", &bytes, "refused 11\n");
}

#[test]
fn cut_numbers() {
    // Views that are cut, held and refused, in one sheet. A refused view's line has no number.
    let sound = whole_view(&SQUARE, 0);
    let held = PlineViewData {
        end_index_offset: 5,
        ..sound
    };
    let refused = PlineViewData {
        start_index: 4,
        ..sound
    };
    for number in [
        0,
        1,
        9,
        10,
        999_999_999,
        1_000_000_000,
        u32::MAX - 1,
        u32::MAX,
    ] {
        let bytes = sheet_of(
            &SQUARE,
            1,
            &[(sound, number), (held, number), (refused, number)],
        );
        let text = String::from_utf8(sheet_text(&bytes)).unwrap();
        let views: Vec<&str> = text
            .lines()
            .filter(|line| line.starts_with("view"))
            .collect();
        assert_eq!(
            views,
            [
                format!("view 0 7 cut 6 {number}"),
                format!("view 1 2 hold 0 {number}"),
                "view 2 refused 4".to_string(),
            ]
        );
        prints(&format!("cut number {number}"), &bytes, &text);
    }
}

#[test]
fn the_gap_of_an_open_outline() {
    // A strip of two sides, 2 long each: from the middle of a side to the end of one that lies `offset` past it.
    let strip = [0.0, 0.0, 0.0, 2.0, 0.0, 0.0, 2.0, 2.0, 0.0];
    let middles = [[1.0, 0.0], [2.0, 1.0], [1.0, 1.0]];
    let view = |start: usize, offset: usize, inverted| PlineViewData {
        start_index: start,
        end_index_offset: offset,
        updated_start: PlineVertex::new(middles[start][0], middles[start][1], 0.0),
        updated_end_bulge: 0.0,
        end_point: Vector2::new(
            strip[3 * ((start + offset + 1) % 3)],
            strip[3 * ((start + offset + 1) % 3) + 1],
        ),
        inverted_direction: inverted,
    };
    let head = |kind| {
        format!(
            "outline 3 1 {kind}\nbox 0000000000000000 0000000000000000 4000000000000000 4000000000000000\n"
        )
    };
    for inverted in [false, true] {
        for (start, offset) in [(0, 2), (1, 1), (2, 0), (2, 3)] {
            let held = sheet_of(&strip, 0, &[(view(start, offset, inverted), 5)]);
            prints("across", &held, &(head("open") + "view 0 7 hold 0 5\n"));
            let cut = sheet_of(&strip, 1, &[(view(start, offset, inverted), 5)]);
            let start = format!("{}view 0 7 cut {} 5\n", head("closed"), offset + 2);
            begins("closed", &cut, &start, 5 + offset);
        }
        for (start, offset) in [(0, 0), (0, 1), (1, 0)] {
            let cut = sheet_of(&strip, 0, &[(view(start, offset, inverted), 5)]);
            let start = format!("{}view 0 7 cut {} 5\n", head("open"), offset + 2);
            begins("before the gap", &cut, &start, 5 + offset);
        }
    }
}

#[test]
fn every_byte_of_the_header() {
    let sound = square_sheet(1, |_| {});
    for place in 0..16 {
        let mut bytes = sound.clone();
        bytes[place] ^= 0xff;
        prints(&format!("byte {place}"), &bytes, "refused 11\n");
    }
}

#[test]
fn every_number_of_the_outline() {
    let sound = square_sheet(1, |_| {});
    for k in 0..12 {
        let limit: f64 = if k % 3 == 2 { 1.0 } else { 1e6 };
        for x in [f64::NAN, f64::INFINITY, limit.next_up(), -limit.next_up()] {
            let mut bytes = sound.clone();
            bytes[16 + 8 * k..][..8].copy_from_slice(&x.to_le_bytes());
            prints(&format!("number {k}"), &bytes, "refused 1\n");
        }
    }
}

#[test]
fn every_field_of_a_record() {
    // The whole sheet is refused for the direction, in front of the outline's numbers, and for no cut number.
    let sound = square_sheet(1, |_| {});
    for place in RECORD + 56..RECORD + 60 {
        let mut bytes = sound.clone();
        bytes[place] = 2;
        bytes[16..24].copy_from_slice(&f64::NAN.to_le_bytes());
        prints(&format!("byte {place}"), &bytes, "refused 12\n");
    }
    for (place, number) in [(60, "2"), (61, "512"), (62, "131072"), (63, "33554432")] {
        let mut bytes = sound.clone();
        bytes[RECORD + place] = 2;
        let text = String::from_utf8(sheet_text(&bytes)).unwrap();
        let line = text.lines().nth(2);
        assert_eq!(line, Some(&format!("view 0 7 cut 6 {number}")[..]));
        begins(&format!("byte {place}"), &bytes, &text, 9);
    }
    // Anything else is the view's own matter, after the outline's two lines.
    let own = |name: &str, change: &dyn Fn(&mut PlineViewData), line: &str| {
        let bytes = square_sheet(1, |d| change(d));
        let text = sheet_text(&bytes);
        let last = text.split_inclusive(|byte| *byte == b'\n').nth(2);
        assert_eq!(last, Some(line.as_bytes()), "the oracle: {name}");
        begins(name, &bytes, "outline 4 1 closed\nbox ", 3);
    };
    own("start index", &|d| d.start_index = 4, "view 0 refused 4\n");
    own("offset", &|d| d.end_index_offset = 5, "view 0 2 hold 0 0\n");
    own(
        "start x",
        &|d| d.updated_start.x = f64::NAN,
        "view 0 refused 1\n",
    );
    own(
        "start y",
        &|d| d.updated_start.y = 1e6f64.next_up(),
        "view 0 refused 1\n",
    );
    own(
        "start bulge",
        &|d| d.updated_start.bulge = -1.5,
        "view 0 refused 1\n",
    );
    own(
        "end bulge",
        &|d| d.updated_end_bulge = 1f64.next_up(),
        "view 0 refused 1\n",
    );
    own(
        "end x",
        &|d| d.end_point.x = f64::INFINITY,
        "view 0 refused 1\n",
    );
    own("end y", &|d| d.end_point.y = f64::NAN, "view 0 refused 1\n");
    own(
        "start off its segment",
        &|d| d.updated_start.y = 1.0,
        "view 0 3 hold 0 0\n",
    );
    own(
        "end off its segment",
        &|d| d.end_point.y = 1.0,
        "view 0 4 hold 0 0\n",
    );
}
