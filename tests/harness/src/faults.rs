//! Faults: the library's answers under a gap beside the analyser, and simulated buses with faults.

use crate::answer::{refusal, Judged};
use crate::fault_calls::{draw, FaultCall, Task};
use crate::faulty::{Faulty, AIMS};
use crate::inputs::generator;
use std::collections::BTreeMap;
use std::panic::catch_unwind;

/// A run of so many inputs must come to every outcome.
const ENOUGH: u64 = 3000;
/// So many inputs are compared for each table that is simulated.
const EACH: u64 = 20;
/// So many differences are printed.
const MOST_PRINTED: u64 = 10;

const OPERATIONS: [&str; 3] = ["judge", "explain", "list"];

/// Verdicts, refusals below 0, and 0 for a listing.
const POSSIBLE: [&[i64]; 3] = [
    &[1, 2, 3, 4, 11, 12, -1, -3, -4, -5, -9, -13, -14, -15, -17],
    &[1, 2, 3, 4, 11, 12, -1, -3, -4, -5, -8, -9, -13, -14, -15, -17],
    &[0, -1, -3, -4, -5, -8, -13, -14, -15, -17],
];

/// Causes that meet 17 or 8, the one that is answered first.
const MEETINGS: [(u32, u32); 8] =
    [(13, 17), (14, 17), (1, 17), (3, 17), (4, 17), (5, 17), (9, 17), (17, 8)];

#[derive(Default)]
struct Tally {
    answers: BTreeMap<(usize, i64), u64>,
    meetings: BTreeMap<(u32, u32), u64>,
    differences: u64,
}

/// Compares so many inputs and simulates a table now and then; true if all is as it must be.
pub fn run(seed: u64, count: u64) -> bool {
    println!("seed {seed}");
    let mut tally = Tally::default();
    let mut faulty = Faulty::default();
    for number in 0..count {
        tally.compare(seed, number);
        if number % EACH == 0 {
            faulty.simulate(&mut generator(!seed, number));
        }
    }
    tally.print();
    print(&faulty);
    let faults = if count < ENOUGH { Vec::new() } else { tally.faults(&faulty) };
    faults.iter().for_each(|fault| println!("{fault}"));
    println!("{count} inputs under gaps between faults, {} differences", tally.differences);
    tally.differences + faulty.late + faulty.unequal + faulty.wrong == 0 && faults.is_empty()
}

fn print(faulty: &Faulty) {
    let aims = AIMS.iter().zip(faulty.cut);
    let aims: Vec<String> = aims.map(|(aim, cut)| format!("{aim} {cut}")).collect();
    println!("transmissions cut by faults aimed at: {}", aims.join(", "));
    println!(
        "{} schedules with faults also tick by tick, {} differ",
        faulty.ticked, faulty.unequal
    );
    println!(
        "{} bounds of lowest-priority frames with faults, {} met to the tick, {} exceeded or wrong",
        faulty.bounds, faulty.met, faulty.wrong
    );
    println!(
        "{} tables with faults, {} frames certified, {} schedules, {} instances, {} at their claim, {} late",
        faulty.tables,
        faulty.certified,
        faulty.schedules,
        faulty.instances,
        faulty.just_in_time,
        faulty.late
    );
}

impl Tally {
    fn compare(&mut self, seed: u64, number: u64) {
        let compared = catch_unwind(|| {
            let mut random = generator(seed, number);
            let call = draw(&mut random);
            let compared = call.compare(&mut random);
            (call, compared)
        });
        match compared {
            Ok((call, Ok(answer))) => self.add(&call, answer),
            Ok((call, Err(difference))) => {
                let (task, gap) = (call.task, call.gap);
                self.differ(format!(
                    "seed {seed}, input {number}, {task:?}, gap {gap}: {difference}"
                ));
            }
            Err(_) => self.differ(format!("seed {seed}, input {number}: the analyser fails")),
        }
    }

    fn differ(&mut self, difference: String) {
        if self.differences < MOST_PRINTED {
            println!("{difference}");
        }
        self.differences += 1;
    }

    fn add(&mut self, call: &FaultCall, answer: i64) {
        let operation = match call.task {
            Task::Judge(_) => 0,
            Task::Explain(..) => 1,
            Task::List(_) => 2,
        };
        let outcome = match refusal(answer) {
            Some(refusal) => -i64::from(refusal.number),
            None if operation == 2 => 0,
            None => Judged::new(answer).verdict,
        };
        *self.answers.entry((operation, outcome)).or_default() += 1;
        if let [first, others @ ..] = &call.causes()[..] {
            if outcome != -i64::from(*first) {
                self.differ(format!("answer {answer}, but the first cause is {first}"));
            }
            for other in others {
                *self.meetings.entry((*first, *other)).or_default() += 1;
            }
        }
    }

    fn print(&self) {
        for (operation, name) in OPERATIONS.iter().enumerate() {
            let of = self.answers.iter().filter(|((other, _), _)| *other == operation);
            let counts: Vec<String> = of.map(|((_, n), count)| format!("{n}: {count}")).collect();
            println!(
                "{name}, by verdict, 0 for a listing, refusals below 0: {}",
                counts.join(", ")
            );
        }
    }

    /// What was possible and not seen, and what was not enough.
    fn faults(&self, faulty: &Faulty) -> Vec<String> {
        let mut faults = Vec::new();
        for (operation, possible) in POSSIBLE.iter().enumerate() {
            let missing = possible.iter().filter(|n| !self.answers.contains_key(&(operation, **n)));
            let name = OPERATIONS[operation];
            faults.extend(missing.map(|number| format!("{name}: {number} did not occur")));
        }
        let missing = MEETINGS.iter().filter(|meeting| !self.meetings.contains_key(meeting));
        faults.extend(missing.map(|(first, other)| format!("{first} did not meet {other}")));
        let Faulty { certified, instances, just_in_time, ticked, met, .. } = *faulty;
        let counts = [certified, instances, just_in_time, ticked, met];
        if counts.iter().chain(&faulty.cut).any(|count| *count == 0) {
            faults.push("something of the simulated buses did not occur".into());
        }
        faults
    }
}
