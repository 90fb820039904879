//! Logs through the library beside the analyser: checked, asked for their busiest stretch, simulated.

use crate::answer::refusal;
use crate::inputs::generator;
use crate::lent::Lent;
use crate::library::{self, Files};
use crate::log_call::{Left, LogCall, Task, FIRST, SEEN, STARTS};
use crate::log_inputs::{draw, width};
use crate::log_tally::LogTally;
use analyser::log::{self, last_end, Line, LINE};
use analyser::log_check::row_of;
use analyser::million;
use analyser::random::Random;
use analyser::replay::{draw_starts, Generator};
use analyser::table::{self, Row, GROUP};
use std::io;
use std::panic::catch_unwind;

/// A run of so many inputs must come to every outcome.
const ENOUGH: u64 = 10_000;

/// So many differences are printed.
const MOST_PRINTED: u64 = 10;

/// What one input came to.
pub struct Met {
    pub call: LogCall,
    pub shape: usize,
    pub answer: i64,
}

/// Compares so many inputs; true if nothing differs. The first that does is saved if wanted.
pub fn run(seed: u64, count: u64, save: Option<&str>) -> io::Result<bool> {
    println!("seed {seed}");
    let mut tally = LogTally::new();
    let mut differences = 0;
    for number in 0..count {
        match compare_one(seed, number) {
            Ok(met) => tally.add(&met),
            Err(difference) => {
                if differences < MOST_PRINTED {
                    println!("seed {seed}, input {number}: {difference}");
                }
                if differences == 0 {
                    save_input(seed, number, save)?;
                }
                differences += 1;
            }
        }
    }
    tally.print();
    let faults = if count < ENOUGH { Vec::new() } else { tally.faults() };
    faults.iter().for_each(|fault| println!("{fault}"));
    let same_draws = million_draws();
    println!("{count} inputs about logs, {differences} differences");
    Ok(differences == 0 && faults.is_empty() && same_draws)
}

/// Draws and compares one input again; true if nothing differs.
pub fn replay(seed: u64, number: u64, save: Option<&str>) -> io::Result<bool> {
    let compared = compare_one(seed, number);
    match &compared {
        Ok(met) => println!("{}: both answer {}", met.call, met.answer),
        Err(difference) => println!("{difference}"),
    }
    save_input(seed, number, save)?;
    Ok(compared.is_ok())
}

/// Lengths and table in the file named, the log beside it.
fn save_input(seed: u64, number: u64, save: Option<&str>) -> io::Result<()> {
    let Some(path) = save else {
        return Ok(());
    };
    let (call, _) = draw(&mut generator(seed, number));
    std::fs::write(path, call.input())?;
    std::fs::write(format!("{path}.log"), call.log)
}

fn compare_one(seed: u64, number: u64) -> Result<Met, String> {
    let compared = catch_unwind(|| {
        let mut random = generator(seed, number);
        let (call, shape) = draw(&mut random);
        let compared = compare(&mut random, &call);
        (call, shape, compared)
    });
    match compared {
        Ok((call, shape, Ok(answer))) => Ok(Met { call, shape, answer }),
        Ok((call, _, Err(difference))) => Err(format!("{call}: {difference}")),
        Err(_) => Err("the analyser fails".into()),
    }
}

/// The answer, which is the first of the causes there are; a log that was written is checked in turn.
fn compare(random: &mut Random, call: &LogCall) -> Result<i64, String> {
    let (answer, left) = call.compare(random)?;
    let first = call.causes().first().copied();
    if refusal(answer).map(|refusal| refusal.number) != first {
        return Err(format!("answer {answer}, but the first cause is {first:?}"));
    }
    if let (Task::Simulate(seed, lines), None, Left::Bytes(bytes)) = (call.task, first, left) {
        let log = bytes[..lines as usize * LINE].to_vec();
        check_simulated(random, call, seed, log)?;
    }
    Ok(answer)
}

/// A simulated log is accepted, with the starts that were drawn where a group has a line; and it has its
/// stretches, the whole of which is busy for the sum of its lengths.
fn check_simulated(
    random: &mut Random,
    call: &LogCall,
    seed: u32,
    log: Vec<u8>,
) -> Result<(), String> {
    let rows = table::parse(&call.table).expect("an accepted table");
    let lines = log::parse(&log).expect("a log in its notation");
    let (lengths, table) = (call.lengths.clone(), call.table.clone());
    let mut asked = LogCall { lengths, table, log, task: Task::Check, size: STARTS };
    let accepted = asked.compare(random)?;
    if !matches!(accepted, (16, Left::Starts(starts)) if starts == shown(&rows, &lines, seed)) {
        return Err("the simulated log is not shown with the starts drawn".into());
    }
    asked.size = FIRST + SEEN * rows.len();
    asked.task = Task::Busiest(width(random, &lines));
    asked.compare(random)?;
    asked.task = Task::Busiest(last_end(&lines));
    let busy: u64 = lines.iter().map(|line| line[log::LENGTH]).sum();
    let first = format!("{busy:>11}{:>11}\n", 0);
    match asked.compare(random)? {
        (_, Left::Bytes(sheet)) if sheet.starts_with(first.as_bytes()) => Ok(()),
        _ => Err("the busy ticks of the whole log are not the sum of its lengths".into()),
    }
}

/// The starts that a seed draws, and for each group without a line the last end.
fn shown(rows: &[Row], lines: &[Line], seed: u32) -> Vec<u64> {
    let drawn = draw_starts(rows, &mut Generator::new(seed));
    let start = |(group, drawn): (u32, u64)| {
        let is_of = |row: usize| rows[row][GROUP] == group;
        let has_line = lines.iter().any(|line| row_of(rows, line).is_some_and(is_of));
        if has_line {
            drawn
        } else {
            last_end(lines)
        }
    };
    (1..).zip(drawn).map(start).collect()
}

/// The logs of a million draws have the fingerprint that is stored.
fn million_draws() -> bool {
    let mut random = Random::new(1);
    let found = million::fingerprint(|lengths, table, seed, lines| {
        let mut files = Files {
            lengths: Lent::new(&mut random, lengths),
            table: Lent::new(&mut random, table),
            log: Lent::new(&mut random, &[]),
        };
        let mut area = Lent::new(&mut random, &vec![0; lines as usize * LINE]);
        library::simulate(&mut files, seed, lines, &mut area);
        area.contents().to_vec()
    });
    let same = found == million::FINGERPRINT;
    println!("logs of a million draws: {}", if same { "as stored" } else { "not as stored" });
    same
}
