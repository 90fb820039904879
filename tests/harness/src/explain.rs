//! The case that breaks a claim, through the library beside the analyser.

use crate::compare::with_area;
use crate::explain_inputs::{draw, ExplainCall};
use crate::explain_tally::ExplainTally;
use crate::inputs::generator;
use crate::lent::Lent;
use crate::library;
use analyser::explain::{explain_files, Explained};
use analyser::listing::{judge_number, refusal_number};
use analyser::random::Random;
use analyser::table::{copy_into, Refusal};
use std::io;
use std::panic::catch_unwind;

/// A run of so many inputs must come to every outcome.
const ENOUGH: u64 = 3000;

/// So many differences are printed.
const MOST_PRINTED: u64 = 10;

/// Compares so many inputs; true if nothing differs. The first that does is saved if wanted.
pub fn run(seed: u64, count: u64, save: Option<&str>) -> io::Result<bool> {
    println!("seed {seed}");
    let mut tally = ExplainTally::new();
    let mut differences = 0;
    for number in 0..count {
        match compare_one(seed, number) {
            Ok((call, answer)) => tally.add(&call, answer),
            Err(difference) => {
                if differences < MOST_PRINTED {
                    println!("seed {seed}, input {number}: {difference}");
                }
                if differences == 0 {
                    save_input(seed, number, save)?;
                }
                differences += 1;
            }
        }
    }
    tally.print();
    let faults = if count < ENOUGH { Vec::new() } else { tally.faults() };
    faults.iter().for_each(|fault| println!("{fault}"));
    println!("{count} inputs explained, {differences} differences");
    Ok(differences == 0 && faults.is_empty())
}

/// Draws and compares one input again; true if nothing differs.
pub fn replay(seed: u64, number: u64, save: Option<&str>) -> io::Result<bool> {
    let compared = compare_one(seed, number);
    match &compared {
        Ok((call, answer)) => println!("{call}: both answer {answer}"),
        Err(difference) => println!("{difference}"),
    }
    save_input(seed, number, save)?;
    Ok(compared.is_ok())
}

fn save_input(seed: u64, number: u64, save: Option<&str>) -> io::Result<()> {
    let Some(path) = save else {
        return Ok(());
    };
    std::fs::write(path, draw(&mut generator(seed, number)).input())
}

fn compare_one(seed: u64, number: u64) -> Result<(ExplainCall, i64), String> {
    let compared = catch_unwind(|| {
        let mut random = generator(seed, number);
        let call = draw(&mut random);
        let compared = compare(&mut random, &call);
        (call, compared)
    });
    match compared {
        Ok((call, Ok(answer))) => Ok((call, answer)),
        Ok((call, Err(difference))) => Err(format!("{call}: {difference}")),
        Err(_) => Err("the analyser fails".into()),
    }
}

/// The answer, which is that of judging, unless the area is too short for the case.
fn compare(random: &mut Random, call: &ExplainCall) -> Result<i64, String> {
    let ExplainCall { lengths, table, row, size } = call;
    let explained = explain_files(lengths, table, (*row).into()).map(|(_, explained)| explained);
    let expect = |area: &mut [u32]| expected(explained, area);
    let answer = with_area(random, lengths, table, *size, expect, |lengths, table, area| {
        library::explain(lengths, table, *row, area)
    })?;
    let [mut lengths, mut table] = [lengths, table].map(|bytes| Lent::new(random, bytes));
    let judged = library::judge(&mut lengths, &mut table, *row);
    let short = refusal_number(Refusal { number: 8, place: 0 });
    if answer == judged || answer == short {
        Ok(answer)
    } else {
        Err(format!("answer {answer}, but judging answers {judged}"))
    }
}

/// The judge's number; the case at the start of the area, where there is one. An area too short for it
/// comes last.
pub fn expected(explained: Result<Explained, Refusal>, area: &mut [u32]) -> i64 {
    let shown = explained.and_then(|Explained { judgement, case }| match case {
        Some(case) => copy_into(&case.numbers(), area).map(|()| judgement),
        None => Ok(judgement),
    });
    judge_number(shown)
}
