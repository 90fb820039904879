//! What 15 came before, and what came before a 15: on its line 1, 3, 4 and 5, on lines before it
//! whatever is wrong there; behind it what is wrong on later lines, with groups, row and area.

use crate::answer::refusal;
use crate::call::Call;
use analyser::literal_table::{faults_of_file, faults_of_words, Fault, Place};
use analyser::table::Refusal;

/// The other causes.
const CAUSES: [u32; 9] = [1, 3, 4, 5, 15, 6, 7, 9, 8];

/// Where the other cause is, and which there can be: of a file, and of rows in memory.
const CELLS: [(&str, [&[u32]; 2]); 3] = [
    ("15 before", [&CAUSES, &[4, 5, 15, 6, 7, 9, 8]]),
    ("15 after, same line", [&[1, 3, 4, 5], &[4, 5]]),
    ("15 after, later line", [&[1, 3, 4, 5], &[4, 5]]),
];

/// How often each was met, of files and of rows.
pub struct GroupOrders {
    counts: [[[u64; CAUSES.len()]; 2]; CELLS.len()],
}

impl GroupOrders {
    pub fn new() -> GroupOrders {
        GroupOrders { counts: [[[0; CAUSES.len()]; 2]; CELLS.len()] }
    }

    pub fn add(&mut self, call: &Call, answer: i64) {
        let (in_memory, faults) = match call {
            Call::File(_, file, _) => (0, faults_of_file(file)),
            Call::Rows(_, words, _) => (1, faults_of_words(words)),
            Call::ReadLengths(..) | Call::WriteLengths(..) => return,
        };
        match (faults.iter().min(), refusal(answer)) {
            (Some(first), Some(Refusal { number, .. })) if first.number == number => {
                for (cell, cause) in met(call, first, &faults) {
                    let at = CAUSES.iter().position(|known| *known == cause);
                    self.counts[cell][in_memory][at.expect("a known cause")] += 1;
                }
            }
            _ => (),
        }
    }

    /// A line for each place and kind of table, a column for each cause.
    pub fn print(&self) {
        println!("{:<29}{}", "", CAUSES.map(|cause| format!("{cause:>7}")).concat());
        self.lines().for_each(|(name, possible, counts)| {
            let column = |(cause, count): (u32, &u64)| {
                let text = if possible.contains(&cause) { count.to_string() } else { "".into() };
                format!("{text:>7}")
            };
            let columns: String = CAUSES.into_iter().zip(counts).map(column).collect();
            println!("{name:<29}{}", columns.trim_end());
        });
    }

    /// What did not occur.
    pub fn faults(&self) -> Vec<String> {
        let missed = |(name, possible, counts): (String, &[u32], &[u64; CAUSES.len()])| {
            let missed = CAUSES.into_iter().zip(*counts).filter(|(_, count)| *count == 0);
            let missed = missed.filter(|(cause, _)| possible.contains(cause));
            missed.map(|(cause, _)| format!("{name}: {cause} was not met")).collect::<Vec<_>>()
        };
        self.lines().flat_map(missed).collect()
    }

    fn lines(&self) -> impl Iterator<Item = (String, &[u32], &[u64; CAUSES.len()])> {
        let of_cell = |((name, possible), counts): ((&str, [&'static [u32]; 2]), _)| {
            let counts: &[[u64; CAUSES.len()]; 2] = counts;
            let kinds = ["file", "rows"].into_iter().zip(possible).zip(counts);
            let name = name.to_string();
            kinds.map(move |((kind, possible), counts)| {
                (format!("{kind}: {name}"), possible, counts)
            })
        };
        CELLS.into_iter().zip(&self.counts).flat_map(of_cell)
    }
}

/// The cell and the other cause, for each thing that is wrong besides the first.
fn met(call: &Call, first: &Fault, faults: &[Fault]) -> Vec<(usize, u32)> {
    let others = faults.iter().filter(|fault| *fault > first);
    if first.number == 15 {
        let mut causes: Vec<u32> = others.map(|fault| fault.number).collect();
        causes.extend(call.row().is_some_and(|row| row >= call.lines() as u64).then_some(9));
        causes.extend(call.room().is_some_and(|(size, need)| size < need).then_some(8));
        return causes
            .into_iter()
            .filter(|cause| CAUSES.contains(cause))
            .map(|cause| (0, cause))
            .collect();
    }
    if !matches!(first.place, Place::Line(_)) {
        return Vec::new();
    }
    let second_groups = others.filter(|fault| fault.number == 15);
    second_groups
        .map(|fault| (if fault.place == first.place { 1 } else { 2 }, first.number))
        .collect()
}
