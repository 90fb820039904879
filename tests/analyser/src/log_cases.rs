//! Cases for a program that answers the commands check-log, busiest and simulate.

use crate::bus;
use crate::busiest::busiest;
use crate::cases::{self, Case};
use crate::lengths::{self, length, LengthTable, STANDARD};
use crate::log::{self, last_end, Line};
use crate::log_check::check_log;
use crate::log_damage::{self, Of, DAMAGES};
use crate::log_examples;
use crate::random::{clustered, dense, own_lengths, stretched, Random};
use crate::replay::simulate;
use crate::simulator::Starts;
use crate::table::{self, Row};

/// Random logs, each checked and asked for a stretch, and random seeds.
const LOGS: usize = 60;
const SEEDS: usize = 20;

/// Seeds whose logs have all lines that there can be.
const LONG: [u64; 2] = [2_463_534_242, 4_294_967_295];

#[derive(Clone, Copy)]
pub enum Operation {
    Check,
    Busiest,
    Simulate,
}

/// What is asked: of a log, with a width for the busiest stretch; or of a seed, with a number of lines.
pub struct Asked {
    pub operation: Operation,
    pub numbers: [u64; 2],
    /// Lengths and a table.
    pub input: Vec<u8>,
    pub log: Vec<u8>,
}

impl Asked {
    /// The letter, the size of the input, and the payload: both numbers in columns of 20, the input, and
    /// behind it the log.
    fn case(&self) -> Case {
        let letter = match self.operation {
            Operation::Check => 'C',
            Operation::Busiest => 'B',
            Operation::Simulate => 'S',
        };
        let numbers: String = self.numbers.iter().map(|number| format!("{number:>20}")).collect();
        let payload = [numbers.as_bytes(), &self.input, &self.log].concat();
        Case { letter, number: self.input.len(), payload }
    }

    /// What the command prints.
    pub fn answer(&self) -> Vec<u8> {
        let [first, second] = self.numbers;
        match self.operation {
            Operation::Check => check_log(&self.input, &self.log).into_bytes(),
            Operation::Busiest => busiest(&self.input, &self.log, first).into_bytes(),
            Operation::Simulate => simulate(&self.input, first as u32, second),
        }
    }
}

pub fn stdin(asked: &[Asked]) -> Vec<u8> {
    cases::stdin(&asked.iter().map(Asked::case).collect::<Vec<Case>>())
}

pub fn stdout(asked: &[Asked]) -> Vec<u8> {
    asked.iter().flat_map(Asked::answer).collect()
}

/// The examples, whose answers are worked out by hand, and random cases.
pub fn all() -> Vec<Asked> {
    let mut random = Random::new(10_11_12);
    let mut asked = Vec::new();
    for (example, expected) in log_examples::all() {
        assert_eq!(String::from_utf8_lossy(&example.answer()), expected);
        asked.push(example);
    }
    (0..LOGS).for_each(|_| add_log(&mut random, &mut asked));
    for _ in 0..SEEDS {
        let numbers = [random.below(1 << 32).max(1), random.between(1, 25)];
        add_seed(&mut random, numbers, &mut asked);
    }
    LONG.into_iter().for_each(|seed| add_seed(&mut random, [seed, 1600], &mut asked));
    asked
}

/// A log, mostly with some damage, checked and with a width, mostly within it.
fn add_log(random: &mut Random, asked: &mut Vec<Asked>) {
    let (lengths, rows) = some_table(random);
    let mut lines = some_log(random, &lengths, &rows);
    for _ in 0..random.pick(&[0, 0, 1, 1, 2]) {
        let way = random.below(DAMAGES.len() as u64) as usize;
        log_damage::damage(random, Of { lengths: &lengths, rows: &rows }, &mut lines, way);
    }
    let until = last_end(&lines);
    let width = random.pick(&[1, until, until + 1, random.clone().between(1, until.max(1))]);
    for (operation, width) in [(Operation::Check, 0), (Operation::Busiest, width)] {
        let (input, log) = (input_of(&lengths, &rows), log::file_of(&lines));
        asked.push(Asked { operation, numbers: [width, 0], input, log });
    }
}

fn add_seed(random: &mut Random, numbers: [u64; 2], asked: &mut Vec<Asked>) {
    let (lengths, rows) = some_table(random);
    let input = input_of(&lengths, &rows);
    asked.push(Asked { operation: Operation::Simulate, numbers, input, log: Vec::new() });
}

fn input_of(lengths: &LengthTable, rows: &[Row]) -> Vec<u8> {
    [lengths::file_of(lengths), table::file_of(rows)].concat()
}

fn some_table(random: &mut Random) -> (LengthTable, Vec<Row>) {
    let lengths = if random.percent(50) { STANDARD } else { own_lengths(random) };
    loop {
        let groups = random.between(1, 5);
        let rows = match random.below(3) {
            0 => clustered(random, &lengths, groups.max(2), 4, (60, 300)),
            1 => dense(random, &lengths, 6),
            _ => stretched(random, groups, 6, 150),
        };
        if table::check(&rows.concat()).is_ok() {
            return (lengths, rows);
        }
    }
}

/// A log of groups that start close together or far apart.
fn some_log(random: &mut Random, lengths: &LengthTable, rows: &[Row]) -> Vec<Line> {
    let most = random.pick(&[1, 50, 1000, 1_000_000]);
    let starts: Starts = std::array::from_fn(|_| random.below(most));
    let count = random.between(0, 25) as usize;
    bus::log_of(rows, &starts, count, &mut |row| random.between(1, length(lengths, row)))
}

#[cfg(test)]
mod tests {
    #[test]
    fn examples_by_hand() {
        assert!(super::all().len() > super::LOGS);
    }
}
