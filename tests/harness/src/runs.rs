//! The library beside the analyser on random inputs.

use crate::call::Call;
use crate::compare::{compare, Rules};
use crate::group_orders::GroupOrders;
use crate::inputs::{draw, draw_before, generator};
use crate::limits::Limits;
use crate::orders::Orders;
use crate::tally::Tally;
use analyser::random::Random;
use std::io;
use std::panic::catch_unwind;

/// A run of so many inputs must come to every outcome, and to both sides of every limit.
const ENOUGH: u64 = 10_000;

/// So many differences are printed.
const MOST_PRINTED: u64 = 10;

/// Inputs that a seed and a number settle, and the rules by which the analyser answers them.
#[derive(Clone, Copy)]
pub struct Source {
    draw: fn(&mut Random) -> Call,
    rules: Rules,
}

/// Lengths and tables of every kind.
pub const ANY: Source = Source { draw, rules: Rules::Now };

/// Inputs as before there were lengths, groups and late frames: document 01's lengths are loaded, and
/// tables of its seven columns widened by each node's number as its group's. The analyser has its
/// constant, goes by nodes, and knows no offset beyond its period.
pub const BEFORE: Source = Source { draw: draw_before, rules: Rules::Before };

/// Compares so many inputs; true if nothing differs. The first that does is saved if wanted.
pub fn random(seed: u64, count: u64, save: Option<&str>) -> io::Result<bool> {
    println!("seed {seed}");
    let mut tally = Tally::new();
    let mut limits = Limits::new();
    let mut orders = Orders::new();
    let mut group_orders = GroupOrders::new();
    let differences = ANY.run(seed, count, save, |call, answer| {
        tally.add(call, answer);
        limits.add(call, answer);
        orders.add(call, answer);
        group_orders.add(call, answer);
    })?;
    tally.print();
    limits.print();
    orders.print();
    group_orders.print();
    let faults = [tally.faults(), limits.faults(), orders.faults(), group_orders.faults()].concat();
    let complete = count < ENOUGH || is_complete(&faults);
    println!("{} listings by the yardstick as well", tally.listings());
    println!("{count} inputs, {differences} differences");
    Ok(differences == 0 && complete)
}

/// The same for inputs as before there were lengths, groups and late frames.
pub fn before(seed: u64, count: u64, save: Option<&str>) -> io::Result<bool> {
    println!("seed {seed}");
    let mut tally = Tally::as_before();
    let differences = BEFORE.run(seed, count, save, |call, answer| tally.add(call, answer))?;
    tally.print();
    let complete = count < ENOUGH || is_complete(&tally.faults());
    println!("{} listings by the yardstick as well", tally.listings());
    println!(
        "{count} inputs as before, document 01's lengths loaded, groups as nodes and no late frame, \
         {differences} differences"
    );
    Ok(differences == 0 && complete)
}

/// Prints what must have occurred and did not; true if there is nothing.
fn is_complete(faults: &[String]) -> bool {
    faults.iter().for_each(|fault| println!("{fault}"));
    faults.is_empty()
}

impl Source {
    /// Compares so many inputs, and hands on each call with its answer; gives how many differ.
    fn run(
        self,
        seed: u64,
        count: u64,
        save: Option<&str>,
        mut add: impl FnMut(&Call, i64),
    ) -> io::Result<u64> {
        let mut differences = 0;
        for number in 0..count {
            match self.compare_one(seed, number) {
                Ok((call, answer)) => add(&call, answer),
                Err(difference) => {
                    if differences < MOST_PRINTED {
                        println!("{difference}");
                    }
                    if differences == 0 {
                        self.save_input(seed, number, save)?;
                    }
                    differences += 1;
                }
            }
        }
        Ok(differences)
    }

    /// Draws and compares one input again; true if nothing differs.
    pub fn replay(self, seed: u64, number: u64, save: Option<&str>) -> io::Result<bool> {
        let compared = self.compare_one(seed, number);
        let input = format!("seed {seed}, input {number}");
        match &compared {
            Ok((call, answer)) => println!("{input}: {call}: both answer {answer}"),
            Err(difference) => println!("{difference}"),
        }
        self.save_input(seed, number, save)?;
        Ok(compared.is_ok())
    }

    /// The call and its answer, or what differs at which input.
    fn compare_one(self, seed: u64, number: u64) -> Result<(Call, i64), String> {
        let drawn = catch_unwind(|| {
            let mut random = generator(seed, number);
            let call = (self.draw)(&mut random);
            let compared = compare(&call, self.rules, &mut random);
            (call, compared)
        });
        let input = format!("seed {seed}, input {number}");
        match drawn {
            Ok((call, Ok(answer))) => Ok((call, answer)),
            Ok((call, Err(difference))) => Err(format!("{input}: {call}: {difference}")),
            Err(_) => Err(format!("{input}: the analyser or the yardstick fails")),
        }
    }

    fn save_input(self, seed: u64, number: u64, save: Option<&str>) -> io::Result<()> {
        let Some(path) = save else {
            return Ok(());
        };
        std::fs::write(path, (self.draw)(&mut generator(seed, number)).bytes())
    }
}
