//! Bus faults that begin at least a gap apart (document 02, request 9).

use crate::bounds::View;
use crate::explain::{explain_view, Explained};
use crate::judgement::{find_row, judge_view, Judgement, Search, LIMITS};
use crate::lengths::{self, LengthTable};
use crate::listing::{listing_line, refusal_line};
use crate::table::{self, refuse, Refusal, Row};

/// Ticks of signalling after a fault's tick.
pub const SIGNALLING: u64 = 31;

/// What each fault costs: a transmission of the longest frame ahead, and the signalling.
#[derive(Clone, Copy)]
pub(crate) struct Faults {
    gap: u64,
    cost: u64,
}

impl Faults {
    pub(crate) fn new(gap: u64, longest: u64) -> Faults {
        Faults { gap, cost: SIGNALLING + longest }
    }

    /// A fault for each gap that begins in so many ticks.
    pub(crate) fn work(self, ticks: u64) -> u64 {
        ticks.div_ceil(self.gap) * self.cost
    }
}

/// 17 unless a gap lies in 1..1000000.
fn checked(gap: u64) -> Result<u64, Refusal> {
    if (1..=1_000_000).contains(&gap) {
        Ok(gap)
    } else {
        refuse(17, 0)
    }
}

/// A row's view under a gap: the lengths' and the table's checks, then 9, then 17.
fn of_row<T>(
    files: [&[u8]; 2],
    row: i128,
    gap: u64,
    answer: impl FnOnce(&View) -> T,
) -> Result<T, Refusal> {
    let lengths = lengths::parse(files[0])?;
    let rows = table::parse(files[1])?;
    let row = find_row(&rows, row)?;
    Ok(answer(&View::under(Some(checked(gap)?), &lengths, &rows, row)))
}

/// Judges a row of a file under a gap, by the lengths of another.
pub fn judge_files(files: [&[u8]; 2], row: i128, gap: u64) -> Result<Judgement, Refusal> {
    of_row(files, row, gap, |view| judge_view(Search::Pruned, view, LIMITS))
}

/// Judges it and shows the case.
pub fn explain_files(files: [&[u8]; 2], row: i128, gap: u64) -> Result<Explained, Refusal> {
    of_row(files, row, gap, |view| explain_view(Search::Pruned, view, LIMITS))
}

/// The listing of a file under a gap, by the lengths of another; 17 comes after the table's checks.
pub fn list_files(files: [&[u8]; 2], gap: u64) -> Result<String, Refusal> {
    let lengths = lengths::parse(files[0])?;
    let rows = table::parse(files[1])?;
    Ok(list_rows(&lengths, &rows, checked(gap)?))
}

/// The listing of accepted rows.
pub fn list_rows(lengths: &LengthTable, rows: &[Row], gap: u64) -> String {
    let line = |row: usize| {
        let view = View::under(Some(gap), lengths, rows, row);
        listing_line(&rows[row], judge_view(Search::Pruned, &view, LIMITS))
    };
    (0..rows.len()).map(line).collect()
}

/// The listing of an input under a gap, or the one line of a refusal.
pub fn list(input: &[u8], gap: u64) -> String {
    let (lengths, file) = lengths::split(input);
    list_files([lengths, file], gap).unwrap_or_else(refusal_line)
}
