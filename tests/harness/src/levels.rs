//! How many rows of drawn tables stay undecided without and with levels, and what a listing costs.

use crate::bench::{input_of, library_listing};
use crate::bench_tables::Drawing;
use analyser::bounds::View;
use analyser::judgement::LIMITS;
use analyser::lengths::STANDARD;
use analyser::random::Random;
use analyser::table::{Row, CLAIM};
use std::time::Instant;

/// Claims in tenths of the bound.
const FACTORS: [u64; 3] = [10, 11, 13];

/// So many combinations are looked at for an exact bound.
const COMBINATIONS: u64 = 20_000;

/// What the tables came to with claims of one factor.
#[derive(Default)]
struct Measured {
    /// Rows by verdict.
    verdicts: [u64; 13],
    /// Rows undecided without levels; the most of a table, without and with them.
    before: u64,
    most: [u64; 2],
    seconds: f64,
    longest: f64,
}

/// What a claim is set by: the exact bound if it is found, otherwise the rough one; and whether a claim
/// below the rough one is undecided without levels.
struct Bounds {
    rough: u64,
    claimed: u64,
    many: bool,
}

/// Prints the figures of so many tables drawn as in document 002.
pub fn measure(seed: u64, count: u64) -> bool {
    let mut measured: [Measured; 3] = Default::default();
    let (mut rows_in_all, mut exact) = (0, 0);
    for number in 0..count {
        let mut random = Random::new(seed.wrapping_mul(1_000_003).wrapping_add(number));
        let (nodes, unit) = (random.between(5, 16) as u32, random.pick(&[1, 500, 2500]));
        let rows = Drawing { seed: random.word(), nodes, unit, deadlines: false }.rows();
        let bounds: Vec<Option<Bounds>> = (0..rows.len()).map(|row| bounds(&rows, row)).collect();
        rows_in_all += rows.len() as u64;
        exact += bounds.iter().flatten().filter(|bounds| bounds.claimed < bounds.rough).count();
        for (factor, measured) in FACTORS.iter().zip(&mut measured) {
            measured.add(&rows, &bounds, *factor);
        }
    }
    println!("seed {seed}, {count} tables, {rows_in_all} rows, {exact} with an exact bound below the rough one");
    println!("claim  undecided before  after  most of a table  verdict 1     2     3     4    11    12  listing (ms): mean  longest");
    for (factor, measured) in FACTORS.iter().zip(&measured) {
        measured.print(*factor, count);
    }
    true
}

fn bounds(rows: &[Row], row: usize) -> Option<Bounds> {
    let view = View::new(&STANDARD, rows, row);
    let rough = view.rough(LIMITS.window)?.response;
    let claimed = view.exact_within(COMBINATIONS, LIMITS.window).unwrap_or(rough);
    Some(Bounds { rough, claimed, many: view.scenario_count() > LIMITS.scenarios })
}

impl Measured {
    fn add(&mut self, rows: &[Row], bounds: &[Option<Bounds>], factor: u64) {
        let mut rows = rows.to_vec();
        let mut before = 0;
        for (row, bounds) in rows.iter_mut().zip(bounds) {
            let Some(bounds) = bounds else {
                continue;
            };
            let claim = (bounds.claimed * factor / 10).min(1_000_000);
            row[CLAIM] = claim as u32;
            before += u64::from(bounds.many && claim < bounds.rough);
        }
        let input = input_of(&STANDARD, &rows);
        let start = Instant::now();
        let listing = library_listing(&input);
        let seconds = start.elapsed().as_secs_f64();
        let verdicts = listing.lines().map(|line| line[10..13].trim().parse::<usize>());
        let verdicts: Vec<usize> = verdicts.map(|verdict| verdict.expect("a verdict")).collect();
        let after = verdicts.iter().filter(|verdict| **verdict == 12).count() as u64;
        verdicts.into_iter().for_each(|verdict| self.verdicts[verdict] += 1);
        self.before += before;
        self.most = [self.most[0].max(before), self.most[1].max(after)];
        self.seconds += seconds;
        self.longest = self.longest.max(seconds);
    }

    fn print(&self, factor: u64, count: u64) {
        let [before, after] = self.most;
        let verdicts = [1, 2, 3, 4, 11, 12].map(|verdict| format!("{:>6}", self.verdicts[verdict]));
        println!(
            "{:>5.1}{:>18}{:>7}{:>10} to {:>3}    {}{:>20.2}{:>9.2}",
            factor as f64 / 10.0,
            self.before,
            self.verdicts[12],
            before,
            after,
            verdicts.concat(),
            self.seconds * 1000.0 / count as f64,
            self.longest * 1000.0
        );
    }
}
