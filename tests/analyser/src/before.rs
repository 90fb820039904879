//! Tables as they were before there were groups (document 01): seven columns, each node starting by
//! itself, and a load sheet by the node's own hyperperiod. Rows stand here with 0 for the group.

use crate::bounds::View;
use crate::judgement::{bound_view, find_row, judge_view, Judgement, Search, LIMITS};
use crate::lengths::LengthTable;
use crate::listing::listing_line;
use crate::load_sheet::sheet_by;
use crate::table::{self, check_groups, number, refuse, Refusal, Row, IDENTIFIER, KIND, NODE};
use std::ops::Range;

const FIELDS: usize = 7;
const LINE: usize = 43;
const MOST_LINES: usize = 64;

/// Where each column ends.
const ENDS: [usize; FIELDS] = [3, 13, 16, 18, 26, 34, 42];

/// Reads a file: 1 (length), 2, then line by line 1, 3, 4, 5, then 6 and 7 by nodes.
pub fn parse(file: &[u8]) -> Result<Vec<Row>, Refusal> {
    match file.len() {
        0 => refuse(1, 0),
        size if size % LINE != 0 => refuse(1, 0),
        size if size > MOST_LINES * LINE => refuse(2, 0),
        _ => accepted(file.chunks(LINE).map(parse_line)),
    }
}

/// Checks rows in memory: 10, then line by line 4 and 5, then 6 and 7 by nodes.
pub fn check(words: &[u32]) -> Result<Vec<Row>, Refusal> {
    match words.len() {
        0 => refuse(10, 0),
        count if count % FIELDS != 0 || count > MOST_LINES * FIELDS => refuse(10, 0),
        _ => accepted(words.chunks(FIELDS).map(|line| {
            let line: [u64; FIELDS] = std::array::from_fn(|column| line[column].into());
            (0..FIELDS).all(|column| is_within(column, &line)).then_some(line).ok_or(4)
        })),
    }
}

/// Judges a row of accepted rows.
pub fn judge(lengths: &LengthTable, rows: &[Row], row: i128) -> Result<Judgement, Refusal> {
    let row = find_row(rows, row)?;
    Ok(judge_view(Search::Pruned, &View::by(NODE, lengths, rows, row), LIMITS))
}

/// The exact bound alone.
pub fn precise_bound(lengths: &LengthTable, rows: &[Row], row: i128) -> Result<u64, Refusal> {
    let row = find_row(rows, row)?;
    bound_view(&View::by(NODE, lengths, rows, row), row)
}

/// The listing of accepted rows.
pub fn list(lengths: &LengthTable, rows: &[Row]) -> String {
    let judged = |row| {
        let view = View::by(NODE, lengths, rows, row);
        listing_line(&rows[row], judge_view(Search::Pruned, &view, LIMITS))
    };
    (0..rows.len()).map(judged).collect()
}

/// The load sheet of accepted rows.
pub fn sheet(lengths: &LengthTable, rows: &[Row]) -> String {
    sheet_by(NODE, lengths, rows)
}

fn accepted(lines: impl Iterator<Item = Result<[u64; FIELDS], u32>>) -> Result<Vec<Row>, Refusal> {
    let mut rows: Vec<Row> = Vec::new();
    for (line, place) in lines.zip(1..) {
        let line = line.or_else(|number| refuse(number, place))?;
        let [node, identifier, kind, rest @ ..] = line.map(|value| value as u32);
        let [payload, period, offset, claim] = rest;
        if rows.iter().any(|row| row[KIND] == kind && row[IDENTIFIER] == identifier) {
            return refuse(5, place);
        }
        rows.push([node, 0, identifier, kind, payload, period, offset, claim]);
    }
    check_groups(&rows, NODE)?;
    Ok(rows)
}

fn parse_line(line: &[u8]) -> Result<[u64; FIELDS], u32> {
    if !line.ends_with(b"\n") {
        return Err(1);
    }
    let (mut values, mut start) = ([0; FIELDS], 0);
    for (column, end) in ENDS.into_iter().enumerate() {
        values[column] = number(&line[start..end]).ok_or(3u32)?;
        if !is_within(column, &values) {
            return Err(4);
        }
        start = end;
    }
    Ok(values)
}

/// The limits of a column; those of the identifier are judged at the kind.
fn is_within(column: usize, line: &[u64; FIELDS]) -> bool {
    let [node, identifier, kind, payload, period, offset, claim] = *line;
    match column {
        0 => (1..=16).contains(&node),
        1 => true,
        2 => (kind == 11 && identifier < 1 << 11) || (kind == 29 && identifier < 1 << 29),
        3 => payload <= 8,
        4 => (1..=1_000_000).contains(&period),
        5 => offset < period,
        _ => (1..=1_000_000).contains(&claim),
    }
}

/// A file without the column of the groups, whatever else it is.
pub fn narrowed_file(file: &[u8]) -> Vec<u8> {
    narrowed(file, table::LINE, 3..6)
}

/// A file of seven columns with each node's number as its group's, whatever else it is. What is no
/// whole number of lines stays so.
pub fn widened_file(file: &[u8]) -> Vec<u8> {
    widened(file, LINE, 3)
}

/// The same for rows in memory.
pub fn narrowed_words(words: &[u32]) -> Vec<u32> {
    narrowed(words, table::FIELDS, 1..2)
}

pub fn widened_words(words: &[u32]) -> Vec<u32> {
    widened(words, FIELDS, 1)
}

fn narrowed<T: Copy>(list: &[T], line: usize, group: Range<usize>) -> Vec<T> {
    let places = (0..list.len()).filter(|at| !group.contains(&(at % line)));
    places.map(|at| list[at]).collect()
}

fn widened<T: Copy>(list: &[T], line: usize, node: usize) -> Vec<T> {
    let wide = |line: &[T]| match line.split_at(node.min(line.len())) {
        (part, []) if part.len() < node => part.to_vec(),
        (node, rest) => [node, node, rest].concat(),
    };
    list.chunks(line).flat_map(wide).collect()
}
