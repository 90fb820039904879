//! One call of the library, held against the analyser; for listings, the yardstick as well.

use crate::call::{Call, OnFile, OnRows};
use crate::lengths::table_of;
use crate::lent::{filled, Element, Lent};
use crate::{library, yardstick};
use analyser::before;
use analyser::judgement::{judge, precise_bound, Judgement, Search};
use analyser::lengths::{self, LengthTable, STANDARD};
use analyser::listing::{bound_number, judge_number, list_rows_by, refusal_number};
use analyser::load_sheet::sheet_of;
use analyser::random::Random;
use analyser::table::{self, copy_into, Refusal, Row, GROUP, NODE};

/// What the analyser goes by.
#[derive(Clone, Copy)]
pub enum Rules {
    /// The lengths that the call is given, and groups.
    Now,
    /// Its constant, which is document 01's, whatever the call is given; and nodes, in a table without
    /// the column of the groups.
    Before,
}

impl Rules {
    fn lengths_of_file(self, file: &[u8]) -> Result<LengthTable, Refusal> {
        match self {
            Rules::Now => lengths::parse(file),
            Rules::Before => Ok(STANDARD),
        }
    }

    fn lengths_of(self, numbers: &[u32]) -> LengthTable {
        match self {
            Rules::Now => table_of(numbers),
            Rules::Before => STANDARD,
        }
    }

    fn parse(self, file: &[u8]) -> Result<Vec<Row>, Refusal> {
        match self {
            Rules::Now => table::parse(file),
            Rules::Before => before::parse(&before::narrowed_file(file)),
        }
    }

    fn check(self, words: &[u32]) -> Result<Vec<Row>, Refusal> {
        match self {
            Rules::Now => table::check(words),
            Rules::Before => before::check(&before::narrowed_words(words)),
        }
    }

    /// The rows as the library has them: before there were groups, the node's number as the group's.
    fn in_library(self, mut rows: Vec<Row>) -> Vec<Row> {
        if let Rules::Before = self {
            rows.iter_mut().for_each(|row| row[GROUP] = row[NODE]);
        }
        rows
    }

    fn judge(self, lengths: &LengthTable, rows: &[Row], row: u64) -> Result<Judgement, Refusal> {
        match self {
            Rules::Now => judge(lengths, &rows.concat(), row.into()),
            Rules::Before => before::judge(lengths, rows, row.into()),
        }
    }

    fn precise_bound(self, lengths: &LengthTable, rows: &[Row], row: u64) -> Result<u64, Refusal> {
        match self {
            Rules::Now => precise_bound(lengths, &rows.concat(), row.into()),
            Rules::Before => before::precise_bound(lengths, rows, row.into()),
        }
    }

    /// The listing of accepted rows, which the yardstick must give too.
    fn list(self, lengths: &LengthTable, rows: Vec<Row>) -> Result<String, String> {
        let text = match self {
            Rules::Now => list_rows_by(Search::Pruned, lengths, &rows),
            Rules::Before => before::list(lengths, &rows),
        };
        if yardstick::list(lengths, &self.in_library(rows)) == text {
            Ok(text)
        } else {
            Err("the yardstick's listing is not the analyser's".into())
        }
    }

    fn sheet(self, lengths: &LengthTable, rows: &[Row]) -> String {
        match self {
            Rules::Now => sheet_of(lengths, rows),
            Rules::Before => before::sheet(lengths, rows),
        }
    }
}

/// The answer, or what differs.
pub fn compare(call: &Call, rules: Rules, random: &mut Random) -> Result<i64, String> {
    match call {
        Call::File(lengths, file, operation) => {
            compare_file(random, rules, lengths, file, *operation)
        }
        Call::Rows(lengths, words, operation) => {
            compare_rows(random, rules, lengths, words, *operation)
        }
        Call::ReadLengths(lengths, file, size) => {
            compare_file(random, rules, lengths, file, OnFile::LoadSheet(*size))
        }
        Call::WriteLengths(lengths, size) => {
            let wanted = rules.lengths_of(lengths);
            let write = |area: &mut [u8]| written(lengths::write_into(&wanted, area));
            let none: &[u8] = &[];
            with_area(random, none, lengths, *size, write, |_, lengths, area| {
                library::write_lengths(lengths, area)
            })
        }
    }
}

/// An operation on files: the lengths' refusal comes before the table's.
fn compare_file(
    random: &mut Random,
    rules: Rules,
    lengths: &[u8],
    file: &[u8],
    operation: OnFile,
) -> Result<i64, String> {
    let both = || Ok((rules.lengths_of_file(lengths)?, rules.parse(file)?));
    match operation {
        OnFile::Judge(row) => {
            let judged = both().and_then(|(by, rows)| rules.judge(&by, &rows, row));
            without_area(random, lengths, file, judge_number(judged), |lengths, file| {
                library::judge(lengths, file, row)
            })
        }
        OnFile::PreciseBound(row) => {
            let bound = both().and_then(|(by, rows)| rules.precise_bound(&by, &rows, row));
            without_area(random, lengths, file, bound_number(bound), |lengths, file| {
                library::precise_bound(lengths, file, row)
            })
        }
        OnFile::Read(size) => {
            let rows = rules.parse(file).map(|rows| rules.in_library(rows));
            let read = |area: &mut [u32]| copied(rows.map(|rows| rows.concat()), area);
            with_area(random, lengths, file, size, read, |_, file, area| library::read(file, area))
        }
        OnFile::List(size) => {
            let listed = match both() {
                Ok((by, rows)) => Ok(rules.list(&by, rows)?.into_bytes()),
                Err(refusal) => Err(refusal),
            };
            let text = |area: &mut [u8]| copied(listed, area);
            with_area(random, lengths, file, size, text, library::list)
        }
        OnFile::LoadSheet(size) => {
            let sheet = both().map(|(by, rows)| rules.sheet(&by, &rows).into_bytes());
            let text = |area: &mut [u8]| copied(sheet, area);
            with_area(random, lengths, file, size, text, library::load_sheet)
        }
    }
}

/// An operation on rows in memory, by lengths that are checked with them.
fn compare_rows(
    random: &mut Random,
    rules: Rules,
    lengths: &[u32],
    words: &[u32],
    operation: OnRows,
) -> Result<i64, String> {
    let by = rules.lengths_of(lengths);
    let both = || lengths::check(&by).and_then(|()| rules.check(words));
    match operation {
        OnRows::Judge(row) => {
            let wanted = judge_number(both().and_then(|rows| rules.judge(&by, &rows, row)));
            without_area(random, lengths, words, wanted, |lengths, words| {
                library::judge_rows(lengths, words, row)
            })
        }
        OnRows::PreciseBound(row) => {
            let bound = both().and_then(|rows| rules.precise_bound(&by, &rows, row));
            let wanted = bound_number(bound);
            without_area(random, lengths, words, wanted, |lengths, words| {
                library::precise_bound_rows(lengths, words, row)
            })
        }
        OnRows::Check => {
            let wanted = rules.check(words).map_or_else(refusal_number, |_| 0);
            without_area(random, lengths, words, wanted, |_, words| library::check(words))
        }
        OnRows::Write(size) => {
            let rows = rules.check(words).map(|rows| rules.in_library(rows));
            let write = |area: &mut [u8]| copied(rows.map(|rows| table::file_of(&rows)), area);
            with_area(random, lengths, words, size, write, |_, words, area| {
                library::write(words, area)
            })
        }
    }
}

fn written(size: Result<usize, Refusal>) -> i64 {
    size.map_or_else(refusal_number, |size| size as i64)
}

/// Puts a result into the area: how many elements it has; an area too short comes last.
pub fn copied<T: Copy>(result: Result<Vec<T>, Refusal>, area: &mut [T]) -> i64 {
    written(result.and_then(|result| copy_into(&result, area).map(|()| result.len())))
}

/// Calls with no area; lengths and input stay.
pub fn without_area<L: Element, I: Element>(
    random: &mut Random,
    lengths: &[L],
    input: &[I],
    wanted: i64,
    call: impl FnOnce(&mut Lent<L>, &mut Lent<I>) -> i64,
) -> Result<i64, String> {
    let mut lengths = Lent::new(random, lengths);
    let mut input = Lent::new(random, input);
    let answer = call(&mut lengths, &mut input);
    same_answer(answer, wanted)?;
    unchanged("lengths' area", &lengths)?;
    unchanged("input", &input)?;
    Ok(answer)
}

/// Calls with an area of a size, which ends as the analyser has it; lengths and input stay.
pub fn with_area<L: Element, I: Element, O: Element>(
    random: &mut Random,
    lengths: &[L],
    input: &[I],
    size: usize,
    expect: impl FnOnce(&mut [O]) -> i64,
    call: impl FnOnce(&mut Lent<L>, &mut Lent<I>, &mut Lent<O>) -> i64,
) -> Result<i64, String> {
    let mut wanted: Vec<O> = filled(random, size);
    let mut area = Lent::new(random, &wanted);
    let mut lengths = Lent::new(random, lengths);
    let mut input = Lent::new(random, input);
    let answer = call(&mut lengths, &mut input, &mut area);
    same_answer(answer, expect(&mut wanted))?;
    unchanged("lengths' area", &lengths)?;
    unchanged("input", &input)?;
    if !area.guards_hold() {
        return Err("memory around the area is changed".into());
    }
    same_area(area.contents(), &wanted)?;
    Ok(answer)
}

pub fn same_answer(answer: i64, wanted: i64) -> Result<(), String> {
    if answer == wanted {
        Ok(())
    } else {
        Err(format!("answer {answer}, expected {wanted}"))
    }
}

pub fn unchanged<T: Element>(name: &str, lent: &Lent<T>) -> Result<(), String> {
    if lent.is_unchanged() {
        Ok(())
    } else if lent.guards_hold() {
        Err(format!("the {name} is changed"))
    } else {
        Err(format!("memory around the {name} is changed"))
    }
}

pub fn same_area<T: Element>(found: &[T], wanted: &[T]) -> Result<(), String> {
    let Some(at) = (0..wanted.len()).find(|at| found[*at] != wanted[*at]) else {
        return Ok(());
    };
    let (found, wanted): (u64, u64) = (found[at].into(), wanted[at].into());
    Err(format!("element {at} of the area is {found}, expected {wanted}"))
}
