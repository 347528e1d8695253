//! What a comparison counts and finds.

use crate::case::{Call, Case, Outcome};
use oracle::LINE_LIMIT;
use std::collections::BTreeMap;

/// What was compared, and what was found.
#[derive(Debug, Default)]
pub struct Report {
    pub calls: u64,
    pub sheets: u64,
    pub different: u64,
    /// The first few differences, in words.
    pub shown: Vec<String>,
    /// How often the oracle gave each refusal to each call.
    reached: [[u64; 13]; 19],
    /// How often it gave each verdict, and how often its verdicts took 0, 1 and 2 square roots.
    verdicts: [u64; 8],
    roots: [u64; 3],
    /// For each call that takes a line limit, how often it had the default one, how often another in range, and how often
    /// it answered about what is an arc at the default and a line at its own.
    limits: [[u64; 3]; 19],
    /// How often each kind of line stood in its sheets.
    lines: BTreeMap<String, u64>,
}

/// The kinds of lines that sheets have, the lists aside.
const LINES: [&str; 19] = [
    "box",
    "box none",
    "box none retired",
    "box retired",
    "outline closed",
    "outline open",
    "refused 1",
    "refused 11",
    "refused 12",
    "view 1 hold",
    "view 2 hold",
    "view 3 hold",
    "view 4 hold",
    "view 5 hold",
    "view 6 hold",
    "view 7 cut",
    "view 7 hold",
    "view refused 1",
    "view refused 4",
];

/// The kind of a sheet's line; none for a line of a list.
fn kind_of(line: &str) -> Option<String> {
    let words: Vec<&str> = line.split(' ').collect();
    match words[..] {
        ["outline", _, _, closed] => Some(format!("outline {closed}")),
        ["box", "none"] | ["box", "none", "retired"] | ["refused", _] => Some(line.to_string()),
        ["box", _, _, _, _] => Some("box".to_string()),
        ["box", _, _, _, _, "retired"] => Some("box retired".to_string()),
        ["view", _, "refused", refusal] => Some(format!("view refused {refusal}")),
        ["view", _, verdict, mark, _, _] => Some(format!("view {verdict} {mark}")),
        _ => None,
    }
}

impl Report {
    const SHOWN: usize = 5;

    /// Notes a difference.
    pub fn differ(&mut self, what: &str) {
        self.different += 1;
        if self.shown.len() < Self::SHOWN {
            self.shown.push(what.to_string());
        }
    }

    /// Holds a library's outcome against the oracle's; answers whether they are equal.
    pub fn judge(&mut self, case: &Case, expected: &Outcome, found: &Outcome) -> bool {
        self.calls += 1;
        self.reached[case.call as usize][usize::from(expected.refusal)] += 1;
        if case.call == Call::ViewValidate && expected.refusal == 0 {
            self.verdicts[expected.verdict()] += 1;
            self.roots[expected.roots()] += 1;
        }
        if let Some(limit) = case.limit() {
            let at_limit = &mut self.limits[case.call as usize];
            at_limit[0] += u64::from(limit == LINE_LIMIT);
            at_limit[1] += u64::from(limit > LINE_LIMIT && limit <= 1e-3);
            // Refusal 6 is such an answer too.
            let answered = matches!(expected.refusal, 0 | 6);
            at_limit[2] += u64::from(answered && case.straightened());
        }
        let equal = expected == found;
        if !equal {
            self.differ(&format!(
                "{case}\n  expected {expected}\n  found    {found}"
            ));
        }
        equal
    }

    /// Holds a program's text for a sheet against the oracle's.
    pub fn judge_sheet(&mut self, sheet: &[u8], expected: &[u8], found: &[u8]) {
        self.sheets += 1;
        let text = str::from_utf8(expected).expect("a sheet's text is ASCII");
        for kind in text.lines().filter_map(kind_of) {
            *self.lines.entry(kind).or_default() += 1;
        }
        if expected != found {
            let same = expected.iter().zip(found).take_while(|(a, b)| a == b);
            let place = same.count();
            let hex: String = sheet.iter().map(|byte| format!("{byte:02x}")).collect();
            self.differ(&format!(
                "sheet {hex}: the text differs from byte {place} on"
            ));
        }
    }

    /// The refusals, answers, verdicts and lines that document 01 names and no case reached, and those reached that
    /// it does not name; the calls that met no default line limit, no other, or no arc that theirs makes a line.
    pub fn gaps(&self) -> Vec<String> {
        let mut gaps = Vec::new();
        for call in Call::ALL {
            for (refusal, times) in self.reached[call as usize].iter().enumerate() {
                let named = call.refusals().contains(&(refusal as u8));
                if named != (*times > 0) {
                    gaps.push(format!("{call:?} refusal {refusal}: {times} times"));
                }
            }
        }
        for (verdict, times) in self.verdicts.iter().enumerate().skip(1) {
            if *times == 0 {
                gaps.push(format!("verdict {verdict}: never"));
            }
        }
        for (roots, times) in self.roots.iter().enumerate() {
            if *times == 0 {
                gaps.push(format!("{roots} roots: never"));
            }
        }
        for call in Call::ALL.into_iter().filter(|call| call.takes_limit()) {
            let [default, other, straightened] = self.limits[call as usize];
            if default == 0 || other == 0 || straightened == 0 {
                gaps.push(format!(
                    "{call:?}: {default} times at the default line limit, {other} at another, {straightened} on an arc that it makes a line"
                ));
            }
        }
        if !self.lines.keys().eq(&LINES) {
            gaps.push(format!("lines of sheets: {:?}", self.lines));
        }
        gaps
    }

    /// How often each answer, refusal and verdict was reached.
    pub fn table(&self) -> String {
        let mut table = String::new();
        for call in Call::ALL {
            table += &format!("{:28}", format!("{call:?}"));
            for refusal in call.refusals() {
                let times = self.reached[call as usize][usize::from(*refusal)];
                table += &format!(" {refusal}:{times}");
            }
            table += "\n";
        }
        table += "verdicts                    ";
        for verdict in 1..8 {
            table += &format!(" {verdict}:{}", self.verdicts[verdict]);
        }
        table += "\nroots of a verdict          ";
        for (roots, times) in self.roots.iter().enumerate() {
            table += &format!(" {roots}:{times}");
        }
        let total = |k: usize| self.limits.iter().map(|times| times[k]).sum::<u64>();
        table += &format!(
            "\nline limits                  default:{} another:{} arcs that it makes lines:{}",
            total(0),
            total(1),
            total(2)
        );
        table += "\nlines of sheets\n";
        for (kind, times) in &self.lines {
            table += &format!("  {kind:16} {times}\n");
        }
        table
    }

    /// `compared 2,000,000 calls and 2,000 sheets: 0 different`
    pub fn last_line(&self) -> String {
        format!(
            "compared {} calls and {} sheets: {} different",
            grouped(self.calls),
            grouped(self.sheets),
            grouped(self.different)
        )
    }
}

/// A number with its digits in threes.
pub(crate) fn grouped(number: u64) -> String {
    let digits = number.to_string();
    let mut text = String::new();
    for (k, digit) in digits.chars().enumerate() {
        if k > 0 && (digits.len() - k).is_multiple_of(3) {
            text.push(',');
        }
        text.push(digit);
    }
    text
}
