//! The listing and the signed numbers given to C.

use crate::judgement::{judge_row_by, Judgement, Search, LIMITS};
use crate::lengths::{self, LengthTable};
use crate::table::{self, Refusal, Row, IDENTIFIER};

/// A line for each row in table order, or the one line of a refused input, which is a file of
/// lengths and then that of a table.
pub fn list(input: &[u8]) -> String {
    let (lengths, file) = lengths::split(input);
    list_files(lengths, file).unwrap_or_else(refusal_line)
}

/// A line for each row of a file, by the lengths of another.
pub fn list_files(lengths: &[u8], file: &[u8]) -> Result<String, Refusal> {
    let lengths = lengths::parse(lengths)?;
    Ok(list_rows_by(Search::Pruned, &lengths, &table::parse(file)?))
}

/// A line for each of accepted rows, by one search or the other.
pub fn list_rows_by(search: Search, lengths: &LengthTable, rows: &[Row]) -> String {
    let line = |(row, words): (usize, &Row)| {
        listing_line(words, judge_row_by(search, lengths, rows, row, LIMITS))
    };
    rows.iter().enumerate().map(line).collect()
}

/// The line of a row.
pub fn listing_line(row: &Row, judgement: Judgement) -> String {
    format!("{:>10}{}\n", row[IDENTIFIER], judgement_columns(judgement))
}

/// Verdict, bound and margin.
pub fn judgement_columns(judgement: Judgement) -> String {
    let verdict = judgement.verdict as u32;
    format!("{verdict:>3}{:>8}{:>9}", judgement.bound, judgement.margin)
}

/// The one line of a refused table.
pub fn refusal_line(refusal: Refusal) -> String {
    format!("{}\n", refusal_columns(refusal))
}

/// Number and place.
pub fn refusal_columns(refusal: Refusal) -> String {
    format!("{:>3}{:>6}", refusal.number, refusal.place)
}

/// The number given to C for a judged row.
pub fn judge_number(result: Result<Judgement, Refusal>) -> i64 {
    result.map_or_else(refusal_number, |judged| {
        let verdict = judged.verdict as i64 * 100_000_000_000_000;
        verdict + judged.bound as i64 * 10_000_000 + judged.margin + 1_000_000
    })
}

/// The number given to C for a precise bound.
pub fn bound_number(result: Result<u64, Refusal>) -> i64 {
    result.map_or_else(refusal_number, |bound| bound as i64)
}

/// The number given to C where a call is turned back.
pub fn refusal_number(refusal: Refusal) -> i64 {
    -(i64::from(refusal.number) * 10_000 + i64::from(refusal.place))
}
