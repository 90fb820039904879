//! What the calls came to, by operation.

use crate::answer::{refusal, Judged};
use crate::call::{Call, Operation};
use std::collections::{BTreeMap, BTreeSet};
use std::fmt;

/// What a call came to.
#[derive(Clone, Copy, PartialEq, Eq, PartialOrd, Ord)]
enum Outcome {
    Verdict(i64),
    Refused(u32),
    /// A bound, a number of elements, or a check that passed.
    Done,
}

impl Outcome {
    fn of(operation: Operation, answer: i64) -> Outcome {
        match refusal(answer) {
            Some(refusal) => Outcome::Refused(refusal.number),
            None if operation.judges() => Outcome::Verdict(Judged::new(answer).verdict),
            None => Outcome::Done,
        }
    }
}

impl fmt::Display for Outcome {
    fn fmt(&self, out: &mut fmt::Formatter) -> fmt::Result {
        match self {
            Outcome::Verdict(number) => write!(out, "verdict {number:>2}"),
            Outcome::Refused(number) => write!(out, "refused {number:>2}"),
            Outcome::Done => write!(out, "done"),
        }
    }
}

/// All that an operation can come to, by document 01 and document 02's requests 2, 6 and 13.
fn possible(operation: Operation) -> Vec<Outcome> {
    use Operation::*;
    let refusals: &[u32] = match operation {
        JudgeFile => &[1, 2, 3, 4, 5, 6, 7, 9, 13, 14, 15],
        BoundFile => &[1, 2, 3, 4, 5, 6, 7, 9, 11, 12, 13, 14, 15],
        Read => &[1, 2, 3, 4, 5, 6, 7, 8, 15],
        List | LoadSheet => &[1, 2, 3, 4, 5, 6, 7, 8, 13, 14, 15],
        JudgeRows => &[4, 5, 6, 7, 9, 10, 14, 15],
        BoundRows => &[4, 5, 6, 7, 9, 10, 11, 12, 14, 15],
        Check => &[4, 5, 6, 7, 10, 15],
        Write => &[4, 5, 6, 7, 8, 10, 15],
        ReadLengths => &[8, 13, 14],
        WriteLengths => &[8, 14],
    };
    let refused = refusals.iter().map(|number| Outcome::Refused(*number));
    let other = match operation {
        JudgeFile | JudgeRows => [1, 2, 3, 4, 11, 12].map(Outcome::Verdict).to_vec(),
        _ => vec![Outcome::Done],
    };
    refused.chain(other).collect()
}

/// How often each operation came to each outcome.
pub struct Tally {
    possible: BTreeSet<(Outcome, Operation)>,
    counts: BTreeMap<(Outcome, Operation), u64>,
}

impl Tally {
    pub fn new() -> Tally {
        let cells = |operation| possible(operation).into_iter().map(move |o| ((o, operation), 0));
        Tally::of(Operation::ALL.into_iter().flat_map(cells).collect())
    }

    /// For calls as before: with good lengths, which are not refused for them, none of the lengths
    /// alone, and with no second group.
    pub fn as_before() -> Tally {
        let Tally { mut counts, .. } = Tally::new();
        let new = [13, 14, 15].map(Outcome::Refused);
        counts.retain(|(outcome, operation), _| !new.contains(outcome) && !operation.of_lengths());
        Tally::of(counts)
    }

    fn of(counts: BTreeMap<(Outcome, Operation), u64>) -> Tally {
        Tally { possible: counts.keys().copied().collect(), counts }
    }

    pub fn add(&mut self, call: &Call, answer: i64) {
        let operation = call.operation();
        *self.counts.entry((Outcome::of(operation, answer), operation)).or_default() += 1;
    }

    /// A line for each outcome, a column for each operation that can have it.
    pub fn print(&self) {
        let shown = |operation: &Operation| self.counts.keys().any(|(_, other)| other == operation);
        let operations: Vec<Operation> = Operation::ALL.into_iter().filter(shown).collect();
        let names = operations.iter().map(|operation| format!("{operation:>11}"));
        println!("{:<10}{}", "", names.collect::<String>());
        let mut outcomes: Vec<Outcome> = self.counts.keys().map(|(outcome, _)| *outcome).collect();
        outcomes.dedup();
        for outcome in outcomes {
            let count = |operation| self.counts.get(&(outcome, operation));
            let column = |operation| count(operation).map_or("".into(), u64::to_string);
            let columns = operations.iter().map(|operation| format!("{:>11}", column(*operation)));
            println!("{:<10}{}", outcome.to_string(), columns.collect::<String>().trim_end());
        }
    }

    /// How many listings were made, those that did not fit the area among them.
    pub fn listings(&self) -> u64 {
        let outcomes = [Outcome::Done, Outcome::Refused(8)];
        outcomes.map(|outcome| self.counts[&(outcome, Operation::List)]).iter().sum()
    }

    /// What was possible and not seen, and what was seen and not possible.
    pub fn faults(&self) -> Vec<String> {
        let fault = |(&(outcome, operation), &count): (&(Outcome, Operation), &u64)| {
            if count == 0 {
                Some(format!("{operation}: {outcome} did not occur"))
            } else if !self.possible.contains(&(outcome, operation)) {
                Some(format!("{operation}: {outcome} is not one of its outcomes"))
            } else {
                None
            }
        };
        self.counts.iter().filter_map(fault).collect()
    }
}
