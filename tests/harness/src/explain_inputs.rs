//! Random calls that explain a row: each is settled by the seed and its number.

use crate::damage::{damage_file, damage_rows, file_of};
use crate::inputs::{area, row_number};
use crate::lengths::Given;
use crate::tables::{self, is_cheap, Drawn};
use analyser::bounds::View;
use analyser::judge_cases;
use analyser::judgement::LIMITS;
use analyser::lengths::{self, STANDARD};
use analyser::random::{clustered, Random};
use analyser::table::{self, Row, CLAIM};
use std::fmt;

/// The numbers of a case: the alignments of 16 groups, and the instance.
pub const SHOWN: usize = 17;

/// The files of lengths and table, the row asked for, and the size of the area lent.
pub struct ExplainCall {
    pub lengths: Vec<u8>,
    pub table: Vec<u8>,
    pub row: u64,
    pub size: usize,
}

/// Lengths and a table, one of them damaged or none, a row of it or another number, and an area.
pub fn draw(random: &mut Random) -> ExplainCall {
    let drawn = draw_table(random);
    let row = row_number(random, drawn.row as u64, drawn.rows.len() as u64);
    let size = area(random, SHOWN);
    let damaged = random.percent(15).then(|| damaged(random, &drawn, row)).flatten();
    let (lengths, table) =
        damaged.unwrap_or_else(|| (lengths::file_of(&drawn.lengths), file_of(&drawn.rows)));
    // Another row may be too much work.
    let other =
        usize::try_from(row).is_ok_and(|row| row < drawn.rows.len() && !drawn.is_cheap(row));
    ExplainCall { lengths, table, row: if other { drawn.row as u64 } else { row }, size }
}

/// A table and a row that is not too much work, with a claim at or beside its bounds, or a response in
/// some scenario, or one less.
pub fn draw_table(random: &mut Random) -> Drawn {
    let mut drawn = match random.below(100) {
        0 => return catching_up(random),
        1..=30 => later(random),
        31..=50 => crossing(random),
        _ => tables::draw(random),
    };
    if random.percent(70) {
        if let Some(claim) = some_response(random, &drawn) {
            drawn.rows[drawn.row][CLAIM] = claim;
        }
    }
    drawn
}

/// A table that fills the bus nearly, so that some later instance may be the latest.
fn later(random: &mut Random) -> Drawn {
    let lengths = crate::lengths::draw(random);
    loop {
        let rows = match random.below(3) {
            0 => judge_cases::full(random, &lengths),
            _ => judge_cases::filled(random, &lengths),
        };
        let row = tables::lowest(&rows);
        if table::check(&rows.concat()).is_ok() && is_cheap(&lengths, &rows, row) {
            let drawn = Drawn { lengths, rows, row };
            if some_response(&mut random.clone(), &drawn).is_some() {
                return drawn;
            }
        }
    }
}

/// A frame that catches up by a tick each time, and a group of two bursts: the second one meets an
/// instance near the thousandth, which the claim is too small for, if not for the first.
fn catching_up(random: &mut Random) -> Drawn {
    let frequent = random.between(1, 8) as u32;
    let burst = frequent + random.between(1, 8) as u32;
    let second = random.between(980, 1060) as u32 * 56;
    let row = |n| [burst, burst, n, 11, 8, 1_000_000, n / 9 * second, 1];
    let mut rows: Vec<Row> = (0..18).map(row).collect();
    rows.push([frequent, frequent, 99, 11, 0, 56, 0, 1269 + random.below(40) as u32]);
    let row = rows.len() - 1;
    Drawn { lengths: STANDARD, rows, row }
}

/// Several groups with several alignments each.
fn crossing(random: &mut Random) -> Drawn {
    let lengths = crate::lengths::draw(random);
    loop {
        let groups = random.between(2, 5);
        let rows = clustered(random, &lengths, groups, 5, (150, 600));
        let row = tables::lowest(&rows);
        if table::check(&rows.concat()).is_ok() && is_cheap(&lengths, &rows, row) {
            return Drawn { lengths, rows, row };
        }
    }
}

/// A response in some scenario, or one less, as a claim; none where there are none to be had.
fn some_response(random: &mut Random, drawn: &Drawn) -> Option<u32> {
    let view = View::new(&drawn.lengths, &drawn.rows, drawn.row);
    let decided = view.scenario_count() <= LIMITS.scenarios;
    view.rough(LIMITS.window).filter(|_| decided)?;
    let number = random.below(view.scenario_count());
    let responses = view.responses_in(number, LIMITS.window).filter(|found| !found.is_empty())?;
    let claim = random.pick(&responses) - random.below(2);
    Some(claim.clamp(1, 1_000_000) as u32)
}

/// The files with up to three faults, unless the row asked for is too much work by them.
fn damaged(random: &mut Random, drawn: &Drawn, row: u64) -> Option<(Vec<u8>, Vec<u8>)> {
    let faults = random.between(1, 3);
    let in_lengths = random.below(faults + 1);
    let lengths = Given::damaged(random, &drawn.lengths, in_lengths).file;
    let mut rows = drawn.rows.clone();
    let in_rows = random.between(in_lengths, faults);
    (in_lengths..in_rows).for_each(|_| damage_rows(random, &mut rows));
    let mut table = file_of(&rows);
    (in_rows..faults).for_each(|_| damage_file(random, &mut table));
    let (by, rows) = (lengths::parse(&lengths), table::parse(&table));
    let (Ok(by), Ok(rows)) = (by, rows) else {
        return Some((lengths, table));
    };
    let cheap =
        usize::try_from(row).map_or(true, |row| row >= rows.len() || is_cheap(&by, &rows, row));
    cheap.then_some((lengths, table))
}

impl ExplainCall {
    /// Lengths and table as one input.
    pub fn input(&self) -> Vec<u8> {
        [&self.lengths[..], &self.table].concat()
    }
}

impl fmt::Display for ExplainCall {
    fn fmt(&self, out: &mut fmt::Formatter) -> fmt::Result {
        let ExplainCall { lengths, table, row, size } = self;
        write!(out, "explaining row {row} by lengths of {} bytes", lengths.len())?;
        write!(out, " and a table of {}, with an area of {size}", table.len())
    }
}
