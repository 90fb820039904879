//! What calls about logs came to.

use crate::answer::refusal;
use crate::log_call::Task;
use crate::log_inputs::{name, NOTATION, OTHER_TABLE, SHAPES, SIZE};
use crate::logs::Met;
use std::collections::BTreeMap;

const OPERATIONS: [&str; 3] = ["check log", "busiest", "simulate"];

/// The refusals of each; 0 stands for a result.
const POSSIBLE: [&[u32]; 3] = [
    &[0, 1, 2, 3, 4, 5, 6, 7, 8, 13, 14, 15, 18, 19],
    &[0, 1, 2, 3, 4, 5, 6, 7, 8, 13, 14, 15, 18, 19, 20],
    &[0, 1, 2, 3, 4, 5, 6, 7, 8, 13, 14, 15, 21, 22],
];

/// Causes that meet, the one that is answered first; the table's go by 1, the lengths' by 13.
const MEETINGS: [(u32, u32); 18] = [
    (13, 1),
    (13, 18),
    (13, 20),
    (13, 21),
    (13, 8),
    (1, 18),
    (1, 20),
    (1, 21),
    (1, 22),
    (1, 8),
    (18, 19),
    (18, 20),
    (18, 8),
    (19, 20),
    (19, 8),
    (20, 8),
    (21, 22),
    (22, 8),
];

pub struct LogTally {
    /// By operation and number.
    answers: BTreeMap<(usize, u32), u64>,
    /// Of each shape of log: accepted, 18, 19 at the last line, 19 before it; and those of the refused
    /// ones in which the line at the place gives a start with which an earlier line is wrong.
    shapes: [[u64; 4]; SHAPES],
    earlier: [u64; SHAPES],
    /// By the number answered and that of another cause.
    meetings: BTreeMap<(u32, u32), u64>,
}

impl LogTally {
    pub fn new() -> LogTally {
        let cells =
            |operation: usize| POSSIBLE[operation].iter().map(move |n| ((operation, *n), 0));
        let answers = (0..OPERATIONS.len()).flat_map(cells).collect();
        let meetings = MEETINGS.iter().map(|meeting| (*meeting, 0)).collect();
        LogTally { answers, shapes: [[0; 4]; SHAPES], earlier: [0; SHAPES], meetings }
    }

    pub fn add(&mut self, met: &Met) {
        let operation = match met.call.task {
            Task::Check => 0,
            Task::Busiest(_) => 1,
            Task::Simulate(..) => 2,
        };
        let refused = refusal(met.answer);
        let number = refused.map_or(0, |refusal| refusal.number);
        *self.answers.entry((operation, number)).or_default() += 1;
        self.add_meetings(met);
        if operation == 2 {
            return;
        }
        let lines = (met.call.log.len() / 40) as u32;
        let outcome = match refused {
            Some(refusal) if refusal.number == 18 => 1,
            Some(refusal) if refusal.number == 19 && refusal.place == lines => 2,
            Some(refusal) if refusal.number == 19 => 3,
            Some(refusal) if ![8, 20].contains(&refusal.number) => return,
            _ => 0,
        };
        self.shapes[met.shape][outcome] += 1;
        let wrong = refused.filter(|refusal| refusal.number == 19);
        self.earlier[met.shape] +=
            u64::from(wrong.is_some_and(|refusal| met.call.departs_before(refusal.place as usize)));
    }

    fn add_meetings(&mut self, met: &Met) {
        let of = |number: u32| match number {
            13 | 14 => 13,
            1..=7 | 15 => 1,
            other => other,
        };
        if let [first, others @ ..] = &met.call.causes()[..] {
            for other in others {
                *self.meetings.entry((of(*first), of(*other))).or_default() += 1;
            }
        }
    }

    pub fn print(&self) {
        println!("{:<12}{}", "", OPERATIONS.map(|name| format!("{name:>11}")).concat());
        let mut numbers: Vec<u32> = self.answers.keys().map(|(_, number)| *number).collect();
        numbers.sort_unstable();
        numbers.dedup();
        for number in numbers {
            let count = |operation| self.answers.get(&(operation, number));
            let column = |operation| count(operation).map_or("".into(), u64::to_string);
            let columns = [0, 1, 2].map(|operation| format!("{:>11}", column(operation))).concat();
            let outcome = if number == 0 { "done".into() } else { format!("refused {number:>2}") };
            println!("{outcome:<12}{}", columns.trim_end());
        }
        let titles = ["accepted", "18", "19 last", "19 before", "by a start"];
        println!("{:<26}{}", "logs", titles.map(|title| format!("{title:>11}")).concat());
        for (shape, (counts, earlier)) in self.shapes.iter().zip(&self.earlier).enumerate() {
            let columns = counts.iter().chain([earlier]).map(|count| format!("{count:>11}"));
            println!("{:<26}{}", name(shape), columns.collect::<String>());
        }
        let meeting =
            |((first, other), count): (&(u32, u32), &u64)| format!(" {first}<{other}:{count}");
        let meetings: String = self.meetings.iter().map(meeting).collect();
        println!("causes that met, by the one answered (13: lengths, 1: table):{meetings}");
    }

    /// What was possible and not seen, and what was seen and not possible.
    pub fn faults(&self) -> Vec<String> {
        let mut faults = Vec::new();
        for (&(operation, number), &count) in &self.answers {
            let name = OPERATIONS[operation];
            if count == 0 {
                faults.push(format!("{name}: {number} did not occur"));
            } else if !POSSIBLE[operation].contains(&number) {
                faults.push(format!("{name}: {number} is not one of its answers"));
            }
        }
        for ((first, other), _) in self.meetings.iter().filter(|(_, count)| **count == 0) {
            faults.push(format!("{first} did not meet {other}"));
        }
        if self.earlier.iter().sum::<u64>() == 0 {
            faults.push("no start made an earlier line wrong".into());
        }
        for (shape, [accepted, broken, last, before]) in self.shapes.iter().enumerate() {
            let missing = match shape {
                NOTATION | SIZE => *broken == 0,
                OTHER_TABLE => accepted * (last + before) == 0,
                _ => accepted + last + before == 0,
            };
            if missing {
                faults.push(format!("logs: {} did not occur", name(shape)));
            }
        }
        faults
    }
}
