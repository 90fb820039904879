//! Judging a claim: the rough bound first, the exact bound second; where there are too many scenarios
//! for that, the bound of a level.

use crate::bounds::View;
use crate::lengths::{self, LengthTable};
use crate::table::{self, refuse, Refusal, Row};

/// The longest window and the greatest scenario count served.
#[derive(Clone, Copy)]
pub struct Limits {
    pub window: u64,
    pub scenarios: u64,
}

/// The limits of document 01.
pub const LIMITS: Limits = Limits { window: 1_000_000, scenarios: 65_536 };

#[derive(Clone, Copy, Debug, PartialEq, Eq)]
pub enum Verdict {
    CertifiedRough = 1,
    CertifiedExact = 2,
    TooSmall = 3,
    CertifiedLevel = 4,
    NoWindow = 11,
    Undecided = 12,
}

#[derive(Clone, Copy, Debug, PartialEq, Eq)]
pub struct Judgement {
    pub verdict: Verdict,
    pub bound: u64,
    pub margin: i64,
}

impl Judgement {
    fn new(verdict: Verdict, bound: u64, claim: u64) -> Judgement {
        let margin = claim as i64 - bound as i64;
        Judgement { verdict, bound, margin }
    }
}

/// How the exact bound is searched.
#[derive(Clone, Copy)]
pub enum Search {
    /// Every scenario.
    Plain,
    /// Without scenarios that cannot exceed one already seen.
    Pruned,
}

/// Judges a row of accepted rows.
pub fn judge_row(lengths: &LengthTable, rows: &[Row], row: usize, limits: Limits) -> Judgement {
    judge_row_by(Search::Pruned, lengths, rows, row, limits)
}

/// Judges a row of accepted rows by one search or the other.
pub fn judge_row_by(
    search: Search,
    lengths: &LengthTable,
    rows: &[Row],
    row: usize,
    limits: Limits,
) -> Judgement {
    judge_view(search, &View::new(lengths, rows, row), limits)
}

/// Judges the claim of a row as it is seen.
pub fn judge_view(search: Search, view: &View, limits: Limits) -> Judgement {
    let claim = view.claim();
    let Some(rough) = view.rough(limits.window) else {
        return Judgement::new(Verdict::NoWindow, 0, 0);
    };
    if rough.response <= claim {
        return Judgement::new(Verdict::CertifiedRough, rough.response, claim);
    }
    if view.scenario_count() > limits.scenarios {
        let level = level_bound(search, view, limits);
        return if level <= claim {
            Judgement::new(Verdict::CertifiedLevel, level, claim)
        } else {
            Judgement::new(Verdict::Undecided, rough.response, claim)
        };
    }
    let exact = exact_bound(search, view, limits);
    let verdict = if exact <= claim { Verdict::CertifiedExact } else { Verdict::TooSmall };
    Judgement::new(verdict, exact, claim)
}

/// No scenario has a longer window than the rough bound, which has one here.
fn exact_bound(search: Search, view: &View, limits: Limits) -> u64 {
    let exact = match search {
        Search::Plain => view.exact(limits.window).map(|worst| worst.response),
        Search::Pruned => view.exact_pruned(limits.window),
    };
    exact.expect("a window for the rough bound serves every scenario")
}

/// The bound of the deepest level whose product is within the limit. None has a longer window than the
/// rough bound.
fn level_bound(search: Search, view: &View, limits: Limits) -> u64 {
    let level = view.level(search, view.deepest_level(limits.scenarios), limits.window);
    level.expect("a window for the rough bound serves every level")
}

/// Judges a row of rows in memory.
pub fn judge(lengths: &LengthTable, words: &[u32], row: i128) -> Result<Judgement, Refusal> {
    lengths::check(lengths)?;
    let rows = table::check(words)?;
    Ok(judge_row(lengths, &rows, find_row(&rows, row)?, LIMITS))
}

/// Judges a row of a file, by the lengths of another.
pub fn judge_file(lengths: &[u8], file: &[u8], row: i128) -> Result<Judgement, Refusal> {
    let lengths = lengths::parse(lengths)?;
    let rows = table::parse(file)?;
    Ok(judge_row(&lengths, &rows, find_row(&rows, row)?, LIMITS))
}

/// The exact bound alone, of a row of a file.
pub fn precise_bound_file(lengths: &[u8], file: &[u8], row: i128) -> Result<u64, Refusal> {
    let lengths = lengths::parse(lengths)?;
    let rows = table::parse(file)?;
    precise_bound(&lengths, &rows.concat(), row)
}

/// The exact bound alone, of rows in memory.
pub fn precise_bound(lengths: &LengthTable, words: &[u32], row: i128) -> Result<u64, Refusal> {
    lengths::check(lengths)?;
    let rows = table::check(words)?;
    let row = find_row(&rows, row)?;
    bound_view(&View::new(lengths, &rows, row), row)
}

/// The exact bound of a row as it is seen, or 11 or 12 with the row.
pub fn bound_view(view: &View, row: usize) -> Result<u64, Refusal> {
    if view.rough(LIMITS.window).is_none() {
        return refuse(11, row as u32);
    }
    if view.scenario_count() > LIMITS.scenarios {
        return refuse(12, row as u32);
    }
    Ok(exact_bound(Search::Pruned, view, LIMITS))
}

/// Rows count from 0; what is no row gives 9.
pub fn find_row(rows: &[Row], row: i128) -> Result<usize, Refusal> {
    match usize::try_from(row) {
        Ok(row) if row < rows.len() => Ok(row),
        _ => refuse(9, 0),
    }
}
