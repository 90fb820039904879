//! What the lengths' refusals came before: 13 before 14, and both before whatever is wrong with the
//! table, the row and the area.

use crate::answer::refusal;
use crate::call::Call;
use analyser::lengths::{self, LengthTable, FILE, LINE, WIDTH};
use analyser::table::{number, Refusal};

/// All that can be wrong besides, in the order of the checks.
const BEHIND: [u32; 12] = [14, 1, 2, 10, 3, 4, 5, 15, 6, 7, 9, 8];

/// What is refused, whether it is numbers in memory, and what can be wrong besides. 14 behind 14 is
/// another line.
const CELLS: [(&str, u32, bool, &[u32]); 3] = [
    ("13 of a file", 13, false, &[14, 1, 2, 3, 4, 5, 15, 6, 7, 9, 8]),
    ("14 of a file", 14, false, &[14, 1, 2, 3, 4, 5, 15, 6, 7, 9, 8]),
    ("14 of numbers", 14, true, &[14, 10, 4, 5, 15, 6, 7, 9, 8]),
];

/// How often each came before each.
pub struct Orders {
    counts: [[u64; BEHIND.len()]; CELLS.len()],
}

impl Orders {
    pub fn new() -> Orders {
        Orders { counts: [[0; BEHIND.len()]; CELLS.len()] }
    }

    pub fn add(&mut self, call: &Call, answer: i64) {
        let Some(Refusal { number: number @ (13 | 14), .. }) = refusal(answer) else {
            return;
        };
        let in_memory = matches!(call, Call::Rows(..) | Call::WriteLengths(..));
        let cell = CELLS.iter().position(|cell| (cell.1, cell.2) == (number, in_memory));
        let counts = &mut self.counts[cell.expect("a known cause")];
        for cause in behind(call, number) {
            let at = BEHIND.iter().position(|other| *other == cause);
            counts[at.expect("a known cause")] += 1;
        }
    }

    pub fn print(&self) {
        let names = BEHIND.map(|cause| format!("{cause:>7}"));
        println!("{:<15}{}", "before", names.concat());
        for (counts, (name, _, _, possible)) in self.counts.iter().zip(CELLS) {
            let column = |(cause, count): (u32, &u64)| {
                let text = if possible.contains(&cause) { count.to_string() } else { "".into() };
                format!("{text:>7}")
            };
            let columns: String = BEHIND.into_iter().zip(counts).map(column).collect();
            println!("{name:<15}{}", columns.trim_end());
        }
    }

    /// What did not occur.
    pub fn faults(&self) -> Vec<String> {
        let mut faults = Vec::new();
        for (counts, (name, _, _, possible)) in self.counts.iter().zip(CELLS) {
            let missed = BEHIND.into_iter().zip(counts).filter(|(_, count)| **count == 0);
            let missed = missed.filter(|(cause, _)| possible.contains(cause));
            faults.extend(missed.map(|(cause, _)| format!("{name} did not come before {cause}")));
        }
        faults
    }
}

/// What is wrong behind a 13 or a 14: with the values or the other line; and first with the table,
/// the row or the area.
fn behind(call: &Call, number: u32) -> Vec<u32> {
    let outside = match call {
        Call::File(file, ..) | Call::ReadLengths(file, ..) if number == 13 => has_outside(file),
        _ => call.numbers().is_some_and(|lengths| has_both_outside(&lengths)),
    };
    let mut causes = Vec::new();
    causes.extend(outside.then_some(14));
    causes.extend(behind_lengths(call));
    causes
}

/// Some column of a file in broken notation is a number outside the limits.
fn has_outside(file: &[u8]) -> bool {
    let columns =
        |line: &[u8]| -> Vec<Option<u64>> { line[..LINE - 1].chunks(WIDTH).map(number).collect() };
    let is_outside = |length: u64| !(47..=400).contains(&length);
    file.len() == FILE && file.chunks(LINE).flat_map(columns).flatten().any(is_outside)
}

fn has_both_outside(lengths: &LengthTable) -> bool {
    let [short, long] = *lengths;
    [[short; 2], [long; 2]].iter().all(|lines| lengths::check(lines).is_err())
}

fn behind_lengths(call: &Call) -> Option<u32> {
    if let Some(refusal) = call.table_refusal() {
        return Some(refusal.number);
    }
    if call.row().is_some_and(|row| row >= call.lines() as u64) {
        return Some(9);
    }
    let short = call.room().is_some_and(|(size, need)| size < need);
    short.then_some(8)
}
