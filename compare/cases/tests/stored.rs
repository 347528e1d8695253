//! The stored list: large enough, over every call and refusal, and the same each time. What the repository stores of
//! the oracle's answers is what the oracle answers now.

use cases::case::{Call, Case};
use cases::repository;
use cases::stored::{
    Q, all, files, gap, limited, limits, limits_refused, long, numbered, rooted, roots, round,
    turned,
};
use oracle::Oracle;
use oracle::sheet::sheet_text;
use std::fs;

fn stored(file: &str) -> Vec<u8> {
    fs::read(repository().join(file)).unwrap_or_else(|error| panic!("{file}: {error}"))
}

/// Holds a file of the repository to what is made now; `command`, in this workspace, makes the file anew.
fn hold(file: &str, made: &[u8], command: &str) {
    let stored = stored(file);
    let same = stored.iter().zip(made).take_while(|(a, b)| a == b).count();
    assert!(
        stored == made,
        "{file} is not what the oracle makes, from byte {same} on; in compare/ this makes it anew:\n  {command}"
    );
}

#[test]
fn the_list_of_replay_is_made_anew() {
    let command =
        "cargo run --release --bin vectors -- ../crates/replay/stdin ../crates/replay/stdout";
    let (cases, answers) = files(&all());
    hold("crates/replay/stdin", &cases, command);
    hold("crates/replay/stdout", answers.as_bytes(), command);
}

#[test]
fn the_texts_of_sheets_are_made_anew() {
    for (sheet, text) in [
        ("examples/gasket.sheet", "examples/gasket.out"),
        ("examples/hinge.sheet", "examples/hinge.out"),
        ("crates/sheet/stdin", "crates/sheet/stdout"),
    ] {
        let command = format!("cargo run --release --bin sheet < ../{sheet} > ../{text}");
        hold(text, &sheet_text(&stored(sheet)), &command);
    }
}

#[test]
fn the_list_covers_every_call_and_refusal() {
    let cases = all();
    assert!(cases.len() >= 5_000);
    assert!(roots().len() >= 4_200);
    assert_eq!(cases[..roots().len()], roots());

    for call in Call::ALL {
        let given: Vec<u8> = cases
            .iter()
            .filter(|case| case.call == call)
            .map(|case| case.run(&Oracle).refusal)
            .collect();
        for refusal in call.refusals() {
            assert!(given.contains(refusal), "{call:?} {refusal}");
        }
    }
}

/// The vertex limit, by hand: 1,025 and 2,000 vertices are taken, one more is refused 3. Once round an outline from the
/// middle of a segment is two vertices more than it has, and a buffer that is a number short of them is refused 8.
#[test]
fn the_list_knows_the_limit() {
    let cases = long();
    assert!(all().windows(cases.len()).any(|part| part == cases));

    let answers = cases.iter().map(|case| {
        let outcome = case.run(&Oracle);
        let words = outcome.written(case.call);
        let count = match case.call {
            Call::ViewCount | Call::ViewList => words.last().copied(),
            _ => None,
        };
        (case.call, outcome.refusal, count)
    });
    let expected = [
        (Call::ViewCount, 0, Some(1027)),
        (Call::ViewCount, 0, Some(2002)),
        (Call::ViewCount, 3, None),
        (Call::ViewList, 0, Some(2002)),
        (Call::ViewList, 0, Some(2002)),
        (Call::ViewList, 8, None),
        (Call::ViewValidate, 0, None),
        (Call::ViewGet, 0, None),
        (Call::ViewTrim, 0, None),
    ];
    assert_eq!(answers.collect::<Vec<_>>(), expected);
}

/// The cut number at its ends, by hand: a record's last word is its direction and the number. Reversal and two trims keep it;
/// then a trim of one vertex and a short buffer are refused; the other calls answer.
#[test]
fn the_list_keeps_the_number() {
    let cases = numbered();
    assert!(all().windows(cases.len()).any(|part| part == cases));
    for (number, cases) in [0u64, 1, 0x1_0000, 0xffff_fffe, 0xffff_ffff]
        .iter()
        .zip(cases.chunks(10))
    {
        let inverted = number % 2;
        let answers: Vec<_> = cases.iter().map(|case| case.run(&Oracle)).collect();
        for (answer, direction) in answers.iter().zip([1 - inverted, inverted, inverted]) {
            let last = answer.written(Call::ViewTrim).pop();
            assert_eq!(last, Some(direction | number << 32), "{number}");
        }
        let refusals: Vec<u8> = answers.iter().map(|answer| answer.refusal).collect();
        assert_eq!(refusals, [0, 0, 0, 9, 8, 0, 0, 0, 0, 0], "{number}");
    }
}

/// The lookups once round Q, by hand: from the middle of segment `start` its four vertices follow, then the middle again.
#[test]
fn the_list_goes_round() {
    const ROUND: [usize; 8] = [0, 1, 2, 3, 0, 1, 2, 3];
    const MIDDLES: [[f64; 2]; 4] = [[2.0, 0.0], [5.0, 2.0], [2.0, 4.0], [0.0, 2.0]];
    let cases = round();
    assert!(all().windows(cases.len()).any(|part| part == cases));

    let lookups = |view: usize| {
        let lookup = |k: usize| cases[7 * view + k].run(&Oracle).written(Call::ViewGet);
        [0, 1, 2].map(|k| [0, 1].map(|place| f64::from_bits(lookup(k)[place])))
    };
    let vertex = |number: usize| [Q[3 * number], Q[3 * number + 1]];
    for start in 0..4 {
        let middle = MIDDLES[start];
        let (third, fourth) = (ROUND[start + 3], ROUND[start + 4]);
        let forward = [vertex(third), vertex(fourth), middle];
        assert_eq!(lookups(2 * start), forward, "from segment {start}");
        let (second, first) = (ROUND[start + 2], ROUND[start + 1]);
        let inverted = [vertex(second), vertex(first), middle];
        assert_eq!(
            lookups(2 * start + 1),
            inverted,
            "back from segment {start}"
        );
    }
}

/// The marks at the gap, by hand. An open Q has the segments 0, 1 and 2: these starts and offsets stay on them.
#[test]
fn the_list_stops_at_the_gap() {
    const STAY: [(usize, usize); 6] = [(0, 0), (0, 1), (0, 2), (1, 0), (1, 1), (2, 0)];
    let cases = gap();
    assert!(all().windows(cases.len()).any(|part| part == cases));
    let mut marks = cases.iter().map(|case| {
        let outcome = case.run(&Oracle);
        assert_eq!(outcome.refusal, 0);
        outcome.written(Call::ViewMark)[0] == 1
    });
    let mut next = |count| marks.by_ref().take(count).collect::<Vec<bool>>();

    for (start, offset) in (0..4).flat_map(|start| (0..=4).map(move |offset| (start, offset))) {
        let stays = STAY.contains(&(start, offset));
        // Forward open and closed, inverted open and closed.
        let expected = [stays, true, stays, true];
        assert_eq!(next(4), expected, "start {start}, offset {offset}");
    }
    // Without a segment nothing is cut; of two vertices an open outline has the one segment, a closed one its way back.
    assert_eq!(next(4), [false; 4]);
    assert_eq!(next(3), [true, false, false]);
    assert_eq!(next(4), [false; 4]);
    assert_eq!(next(3), [true; 3]);
    assert_eq!(next(1), [] as [bool; 0]);
}

/// The arc that a point off it turns, by hand. Both of the point's chords are longer than the arc's diameter, so the nearer
/// part is a half circle, and the other has bulge (1/2 - 1) / (1 + 1/2). A split at an arc's end leaves nothing behind it,
/// one at its start nothing before it. Of the last the first part has the whole's chord, so nothing but rounding is left
/// for the second, and it turns it.
#[test]
fn the_list_turns_an_arc() {
    const THIRD: f64 = 1.0 / 3.0;
    let cases = turned();
    assert!(all().windows(cases.len()).any(|part| part == cases));
    let mut results = cases.iter().map(|case| {
        let outcome = case.run(&Oracle);
        assert_eq!(outcome.refusal, 0, "{case}");
        outcome.written(case.call)
    });
    for expected in [
        [0.0, 0.0, 1.0, -1.0, 1.0, -THIRD],
        [0.0, 0.0, -1.0, -1.0, 1.0, THIRD],
        [0.0, 0.0, 1.0, -1.0, 1.0, 0.0],
        [-1.0, 1.0, 0.0, -1.0, 1.0, -THIRD],
    ] {
        assert_eq!(results.next().unwrap(), expected.map(f64::to_bits));
    }
    let bulge = f64::from_bits(results.next().unwrap()[5]);
    assert!(-1e-16 < bulge && bulge < 0.0, "{bulge}");
    assert_eq!(results.next(), None);
}

/// Verdicts by their roots, by hand: a root is taken for a point in the sweep of an arc, away from its ends and its centre.
#[test]
fn the_list_counts_roots() {
    let cases = rooted();
    assert!(all().windows(cases.len()).any(|part| part == cases));
    let words = cases.iter().map(|case| {
        let words = case.run(&Oracle).written(case.call);
        words.iter().take(4).copied().collect::<Vec<u64>>()
    });
    let expected: [&[u64]; 13] = [
        &[7, 0, 0, 0],
        &[7, 0, 0, 1],
        &[7, 0, 0, 2],
        &[3, 0, 0, 1],
        &[3, 0, 0, 0],
        &[4, 0, 0, 2],
        &[7, 0, 0, 0],
        &[7, 0, 0, 1],
        &[7, 0, 0, 2],
        &[7, 0, 0, 0],
        &[7, 0, 0, 1],
        &[2, 5, 4, 0],
        &[],
    ];
    assert_eq!(words.collect::<Vec<_>>(), expected);
    assert_eq!(cases[12].run(&Oracle).refusal, 8);
}

/// The words of an answer as numbers.
fn as_numbers(case: &Case) -> Option<Vec<f64>> {
    let outcome = case.run(&Oracle);
    let words = outcome.written(case.call).into_iter();
    (outcome.refusal == 0).then(|| words.map(f64::from_bits).collect())
}

/// Whether numbers are the expected ones, but for what rounding does beside a centre that is 1e7 off.
fn near(found: &[f64], expected: &[f64]) -> bool {
    let near = |(a, b): (&f64, &f64)| (a - b).abs() <= 4e-9 + 1e-12 * b.abs();
    found.len() == expected.len() && found.iter().zip(expected).all(near)
}

/// The traced arcs as arcs and as lines, by hand. The first one's radius is 4 / (4 * 1e-7), and at its start the tangent is as
/// long as that and falls by 2e-7 of it. A quarter of the way along the arc is a quarter of its bulge. The other bows 4000 times
/// half its bulge below its line, which is 0.002 and more than a point may be off.
#[test]
fn the_list_makes_arcs_lines() {
    let cases = limited();
    assert!(all().windows(cases.len()).any(|part| part == cases));
    let (arcs, lines) = cases.split_at(cases.len() / 2);
    let numbers = |cases: &[Case]| cases[..7].iter().map(as_numbers).collect::<Vec<_>>();
    let arc: [&[f64]; 7] = [
        &[1e7, 2.0, 1e7],
        &[0.0, 0.0, 2.5e-8, 1.0, 0.0, 7.5e-8],
        &[1e7, -2.0],
        &[2.0, -2e-7],
        &[f64::from_bits(0)],
        &[0.0, -2e-7, 4.0, 0.0],
        &[2.0, -2e-7],
    ];
    for (k, (found, expected)) in numbers(arcs).iter().zip(arc).enumerate() {
        assert!(near(found.as_ref().unwrap(), expected), "{k}: {found:?}");
    }
    let line: [Option<&[f64]>; 7] = [
        None,
        Some(&[0.0, 0.0, 1e-7, 1.0, 0.0, 0.0]),
        Some(&[4.0, 0.0]),
        Some(&[2.0, 0.0]),
        Some(&[f64::from_bits(1)]),
        Some(&[0.0, 0.0, 4.0, 0.0]),
        Some(&[2.0, 0.0]),
    ];
    for (found, expected) in numbers(lines).iter().zip(line) {
        assert_eq!(found.as_deref(), expected);
    }

    // A record's bulges are its words 3 and 4.
    let bulges = |case: &Case| {
        let numbers = as_numbers(case).unwrap();
        [numbers[3], numbers[4]]
    };
    let near_to = |found: [f64; 2], expected: [f64; 2]| {
        (0..2).all(|k| (found[k] - expected[k]).abs() <= 1e-12 * expected[k])
    };
    assert!(near_to(bulges(&arcs[7]), [0.0, 2.5e-8]));
    assert!(near_to(bulges(&arcs[8]), [7.5e-8, 2.5e-8]));
    assert_eq!(bulges(&lines[7]), [0.0, 1e-7]);
    assert_eq!(bulges(&lines[8]), [0.0, 1e-7]);

    let verdicts = |cases: &[Case]| {
        let words = |case: &Case| case.run(&Oracle).written(case.call);
        let [first, low, cut_low, straight, cut_straight] =
            [9, 10, 11, 12, 13].map(|k| words(&cases[k]));
        let with_roots = [first, low, straight].map(|words| [words[0], words[3]]);
        (with_roots, [cut_low[0], cut_straight[0]])
    };
    assert_eq!(verdicts(arcs), ([[7, 2], [7, 1], [3, 1]], [1, 0]));
    assert_eq!(verdicts(lines), ([[7, 0], [3, 0], [7, 0]], [0, 1]));
}

/// The limit itself and what it is not for, by hand: a bulge of the limit is an arc, and all other tests keep 1e-8.
#[test]
fn the_list_is_strict_at_the_limit() {
    let cases = limits();
    assert!(all().windows(cases.len()).any(|part| part == cases));
    let refusals = cases.iter().map(|case| case.run(&Oracle).refusal);
    let expected = [0, 0, 6, 0, 0, 6, 0, 0, 6, 0, 0, 0, 0, 0, 0, 6];
    assert_eq!(refusals.collect::<Vec<u8>>(), expected);
    let numbers = |k: usize| as_numbers(&cases[k]).unwrap();
    assert_eq!(numbers(9), [1e-7, 0.0]);
    assert_eq!(numbers(11), [1.0 - 1e-7, 0.0]);
    // The line is exactly 1 off, which is not more than 1.
    for k in [10, 12] {
        assert_eq!(cases[k].run(&Oracle).written(cases[k].call), [0]);
    }
    assert_eq!(numbers(13), [5e-7, 5e-7, 0.0]);
    assert_eq!(numbers(14), [0.0, -5e-7, 1e-6, 0.0]);
}

/// The limit's refusal, by hand: 2 after 11, 12, 3 and 1, and before all else.
#[test]
fn the_list_refuses_limits() {
    let cases = limits_refused();
    assert!(all().windows(cases.len()).any(|part| part == cases));
    let refusals: Vec<u8> = cases.iter().map(|case| case.run(&Oracle).refusal).collect();
    let (range, order) = refusals.split_at(6 * 11);
    let range: Vec<&[u8]> = range.chunks(11).collect();
    assert_eq!(range, [0, 0, 2, 2, 2, 1].map(|refusal| [refusal; 11]));
    assert_eq!(order, [3, 2, 2, 2, 2, 2, 2, 2, 2, 2, 11, 12, 2, 8]);
}

#[test]
fn the_files_are_small_and_the_same_each_time() {
    let (stored, answers) = files(&all());
    assert!(stored.len() < 1_500_000, "{}", stored.len());
    assert_eq!(answers.lines().count(), all().len());
    assert_eq!(files(&all()), (stored, answers));
}

#[test]
fn the_stored_form_is_as_described() {
    let (stored, answers) = files(&roots()[4..5]);
    let words = [1u64 | 2 << 32, 4f64.to_bits(), 1];
    let expected: Vec<u8> = words.iter().flat_map(|word| word.to_le_bytes()).collect();
    assert_eq!(stored, expected);
    assert_eq!(answers, "0 0 4000000000000000\n");
}
