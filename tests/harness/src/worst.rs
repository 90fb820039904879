//! The worst case of the frame that ranks last, through the library beside the analyser: starts and
//! instance as the words of document 02, request 14, have them; in the simulator they reach the bound.

use crate::compare::with_area;
use crate::explain_inputs::{self, ExplainCall};
use crate::inputs::{area, generator};
use crate::lent::Lent;
use crate::library;
use crate::tables::is_cheap;
use analyser::lengths;
use analyser::listing::{judge_number, refusal_number};
use analyser::random::Random;
use analyser::simulator::release;
use analyser::table::{self, copy_into, Refusal};
use analyser::worst::{last_row, longest_response, worst_files, Worst, WorstCase};
use std::io;
use std::panic::catch_unwind;

/// The numbers of a worst case: the starts of 16 groups, the instance, and its response.
const SHOWN: usize = 18;

/// A run of so many inputs must come to every outcome.
const ENOUGH: u64 = 3000;

/// So many differences are printed.
const MOST_PRINTED: u64 = 10;

/// What the inputs came to.
const OUTCOMES: [&str; 8] = [
    "shown",
    "groups with frames start apart",
    "an instance after the first",
    "more than 500 scenarios",
    "a response above 10000",
    "the area is too short",
    "the line alone",
    "refused",
];

/// Compares so many inputs; true if nothing differs. The first that does is saved if wanted.
pub fn run(seed: u64, count: u64, save: Option<&str>) -> io::Result<bool> {
    println!("seed {seed}");
    let mut tally = [0; OUTCOMES.len()];
    let mut differences = 0;
    for number in 0..count {
        match compare_one(seed, number) {
            Ok(outcomes) => outcomes.iter().for_each(|outcome| tally[*outcome] += 1),
            Err(difference) => {
                if differences < MOST_PRINTED {
                    println!("seed {seed}, input {number}: {difference}");
                }
                if differences == 0 {
                    save_input(seed, number, save)?;
                }
                differences += 1;
            }
        }
    }
    OUTCOMES.iter().zip(&tally).for_each(|(outcome, times)| println!("{times:>8} {outcome}"));
    let complete = count < ENOUGH || tally.iter().all(|times| *times > 0);
    println!("{count} last frames, {differences} differences");
    Ok(differences == 0 && complete)
}

/// Draws and compares one input again; true if nothing differs.
pub fn replay(seed: u64, number: u64, save: Option<&str>) -> io::Result<bool> {
    let compared = compare_one(seed, number);
    if let Err(difference) = &compared {
        println!("{difference}");
    }
    save_input(seed, number, save)?;
    Ok(compared.is_ok())
}

fn save_input(seed: u64, number: u64, save: Option<&str>) -> io::Result<()> {
    let Some(path) = save else {
        return Ok(());
    };
    std::fs::write(path, draw(&mut generator(seed, number)).input())
}

/// Lengths and a table, with a last frame that is not too much work.
fn draw(random: &mut Random) -> ExplainCall {
    loop {
        let call = explain_inputs::draw(random);
        let (lengths, rows) = (lengths::parse(&call.lengths), table::parse(&call.table));
        let (Ok(lengths), Ok(rows)) = (lengths, rows) else {
            return call;
        };
        if is_cheap(&lengths, &rows, last_row(&rows)) {
            return call;
        }
    }
}

fn compare_one(seed: u64, number: u64) -> Result<Vec<usize>, String> {
    let compared = catch_unwind(|| {
        let mut random = generator(seed, number);
        let call = draw(&mut random);
        compare(&mut random, &call)
    });
    compared.unwrap_or_else(|_| Err("the analyser fails".into()))
}

/// The answer is that of judging the last frame's row, unless the area is too short for the case.
fn compare(random: &mut Random, call: &ExplainCall) -> Result<Vec<usize>, String> {
    let (lengths, table) = (&call.lengths, &call.table);
    let found = worst_files(lengths, table).map(|(_, worst)| worst);
    let size = area(random, SHOWN);
    let expect = |area: &mut [u32]| expected(found.clone(), area);
    let answer = with_area(random, lengths, table, size, expect, library::worst)?;
    let Ok(worst) = found else {
        return Ok(vec![7]);
    };
    let rows = table::parse(table).expect("accepted rows");
    let [mut lent, mut words] = [lengths, table].map(|bytes| Lent::new(random, bytes));
    let judged = library::judge(&mut lent, &mut words, last_row(&rows) as u64);
    let short = refusal_number(Refusal { number: 8, place: 0 });
    if answer != judged && answer != short {
        return Err(format!("answer {answer}, but judging answers {judged}"));
    }
    let Some(case) = worst.case else {
        return Ok(vec![6]);
    };
    reaches(call, &case)?;
    let short = (answer == short).then_some(5);
    Ok(outcomes(call, &case).into_iter().chain(short).collect())
}

/// The judge's number; the case at the start of the area, where one is shown. An area too short for it
/// comes last.
fn expected(worst: Result<Worst, Refusal>, area: &mut [u32]) -> i64 {
    let shown = worst.and_then(|Worst { judgement, case }| match case {
        Some(case) => copy_into(&case.numbers(), area).map(|()| judgement),
        None => Ok(judgement),
    });
    judge_number(shown)
}

/// In the simulator the instance takes the bound to the tick, with these starts and the largest lengths.
fn reaches(call: &ExplainCall, case: &WorstCase) -> Result<(), String> {
    let lengths = lengths::parse(&call.lengths).expect("accepted lengths");
    let rows = table::parse(&call.table).expect("accepted rows");
    let row = last_row(&rows);
    let until = release(&rows[row], &case.starts, case.instance) + case.response;
    let response = longest_response(&lengths, &rows, row, &case.starts, case.instance, until);
    if response == Some(case.response) {
        Ok(())
    } else {
        Err(format!("{case:?} is not reached: {response:?}"))
    }
}

/// Which of the outcomes of a case that is shown.
fn outcomes(call: &ExplainCall, case: &WorstCase) -> Vec<usize> {
    let lengths = lengths::parse(&call.lengths).expect("accepted lengths");
    let rows = table::parse(&call.table).expect("accepted rows");
    let view = analyser::bounds::View::new(&lengths, &rows, last_row(&rows));
    let start = |row: &table::Row| case.starts[row[table::GROUP] as usize - 1];
    let tests = [
        true,
        rows.iter().any(|row| start(row) != start(&rows[0])),
        case.instance > 0,
        view.scenario_count() > 500,
        case.response > 10_000,
    ];
    (0..tests.len()).filter(|test| tests[*test]).collect()
}
