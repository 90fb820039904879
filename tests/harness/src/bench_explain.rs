//! The time of explaining a row beside that of judging it, on the tables that are measured.

use crate::answer::Judged;
use crate::bench_sets::{sets, Table};
use crate::explain_inputs::SHOWN;
use crate::lent::Lent;
use crate::library;
use analyser::lengths::{self, LengthTable};
use analyser::random::Random;
use analyser::table::{self, Row, CLAIM};
use std::time::{Duration, Instant};

/// A table's rows are timed in turns for about so long, at most so often.
const TURNS: Duration = Duration::from_secs(1);
const MOST_TURNS: usize = 21;
/// The ratio of a row that takes less to judge says little.
const SHORT: Duration = Duration::from_micros(100);

const LEGEND: &str = "Time of rows with verdict 3: each is judged and explained in turns, and the least time of each counts.
claims: as they are, or one below the precise bound of each row that has one
judged, explained: sums over the table's rows
ratio: of these sums; worst: the greatest of a row that takes 0.1 ms or more to judge";

/// What a row takes.
#[derive(Clone, Copy)]
struct Taken {
    judged: Duration,
    explained: Duration,
}

impl Taken {
    fn ratio(self) -> f64 {
        self.explained.as_secs_f64() / self.judged.as_secs_f64()
    }
}

/// A call that explains a row with verdict 3.
struct Call {
    lengths: Lent<u8>,
    file: Lent<u8>,
    shown: Lent<u32>,
    row: u64,
    least: Taken,
}

/// Measures all tables; false if explaining answers otherwise than judging.
pub fn bench() -> bool {
    println!("{LEGEND}");
    let mut same = true;
    for (title, tables) in sets() {
        println!("\n{title}");
        let titles = ["rows", "judged", "explained", "ratio", "worst"];
        println!("{:<44}{:<11}{}", "", "claims", titles.map(|t| format!("{t:>11}")).concat());
        for Table { name, lengths, rows } in &tables {
            same &= measure(name, "as given", calls(lengths, rows, |_, claim| claim));
            same &= measure(name, "just below", calls(lengths, rows, |bound, _| bound - 1));
        }
    }
    same
}

/// The rows with verdict 3 by the claim that is made of the precise bound and the row's own.
fn calls(lengths: &LengthTable, rows: &[Row], claim: fn(u32, u32) -> u32) -> Vec<Call> {
    let call = |row: usize| {
        let with_claim = |claim| {
            let mut rows = rows.to_vec();
            rows[row][CLAIM] = claim;
            let mut call = Call::new(lengths, &rows, row);
            let judged = call.judge();
            (judged.verdict == 3).then_some((judged, call))
        };
        let (Judged { margin, .. }, _) = with_claim(1)?;
        let bound = (1 - margin) as u32;
        with_claim(claim(bound, rows[row][CLAIM])).map(|(_, call)| call)
    };
    (0..rows.len()).filter_map(call).collect()
}

impl Call {
    fn new(lengths: &LengthTable, rows: &[Row], row: usize) -> Call {
        let random = &mut Random::new(0);
        let [lengths, file] = [lengths::file_of(lengths), table::file_of(rows)];
        Call {
            lengths: Lent::new(random, &lengths),
            file: Lent::new(random, &file),
            shown: Lent::new(random, &[0; SHOWN]),
            row: row as u64,
            least: Taken { judged: Duration::MAX, explained: Duration::MAX },
        }
    }

    fn judge(&mut self) -> Judged {
        Judged::new(library::judge(&mut self.lengths, &mut self.file, self.row))
    }

    /// Judges and explains; whether both answer the same.
    fn time(&mut self) -> bool {
        let begin = Instant::now();
        let judged = library::judge(&mut self.lengths, &mut self.file, self.row);
        let between = Instant::now();
        let Call { lengths, file, shown, row, least } = self;
        let explained = library::explain(lengths, file, *row, shown);
        least.explained = least.explained.min(between.elapsed());
        least.judged = least.judged.min(between - begin);
        judged == explained
    }
}

/// Prints the line of a table; false if an answer differs.
fn measure(name: &str, claims: &str, mut calls: Vec<Call>) -> bool {
    if calls.is_empty() {
        return true;
    }
    let begin = Instant::now();
    let mut same = true;
    for turn in 0..MOST_TURNS {
        if turn > 0 && begin.elapsed() >= TURNS {
            break;
        }
        same &= calls.iter_mut().fold(true, |same, call| call.time() & same);
    }
    let rows = || calls.iter().map(|call| call.least);
    let sum = Taken {
        judged: rows().map(|taken| taken.judged).sum(),
        explained: rows().map(|taken| taken.explained).sum(),
    };
    let long = rows().filter(|taken| taken.judged >= SHORT);
    let worst = long.map(Taken::ratio).max_by(f64::total_cmp);
    let columns = [
        calls.len().to_string(),
        time_text(sum.judged),
        time_text(sum.explained),
        format!("{:.2}", sum.ratio()),
        worst.map_or("-".into(), |worst| format!("{worst:.2}")),
    ];
    println!("{name:<44}{claims:<11}{}", columns.map(|text| format!("{text:>11}")).concat());
    if !same {
        println!("explaining answers otherwise");
    }
    same
}

fn time_text(time: Duration) -> String {
    match time.as_secs_f64() {
        seconds if seconds < 1.0 => format!("{:.3} ms", seconds * 1e3),
        seconds => format!("{seconds:.2} s"),
    }
}
