//! The worst case of the frame that ranks last (document 02, request 14): the group starts with which,
//! all lengths being largest, its exact bound is reached to the tick, and the instance that reaches it.

use crate::bounds::{rank, View};
use crate::explain::Case;
use crate::judgement::{bound_view, judge_view, Judgement, Search, LIMITS};
use crate::lengths::{self, length, LengthTable};
use crate::listing::{listing_line, refusal_line};
use crate::simulator::{release, schedule, Starts};
use crate::table::{self, Refusal, Row, OFFSET, PERIOD};

/// The starts, the instance, from 0, and its response.
#[derive(Clone, Debug, PartialEq, Eq)]
pub struct WorstCase {
    pub starts: Starts,
    pub instance: u64,
    pub response: u64,
}

/// The judgement of the last frame, and its worst case where it is shown.
#[derive(Clone, Debug, PartialEq, Eq)]
pub struct Worst {
    pub judgement: Judgement,
    pub case: Option<WorstCase>,
}

/// The row of the frame that ranks last.
pub fn last_row(rows: &[Row]) -> usize {
    (0..rows.len()).max_by_key(|row| rank(&rows[*row])).expect("a row")
}

/// Judges the last frame of accepted rows, and shows its worst case: where its exact bound can be had,
/// and every offset is below its period.
pub fn worst_rows(lengths: &LengthTable, rows: &[Row]) -> Worst {
    let row = last_row(rows);
    let view = View::new(lengths, rows, row);
    let judgement = judge_view(Search::Pruned, &view, LIMITS);
    let early = rows.iter().all(|row| row[OFFSET] < row[PERIOD]);
    let bound = bound_view(&view, row).ok().filter(|_| early);
    let case = bound.map(|bound| worst_case(&view, &rows[row], bound));
    Worst { judgement, case }
}

/// The first scenario and its least q with the bound as the response: each group starts so many ticks
/// before the greatest alignment as its own alignment has, and q counts from there.
fn worst_case(view: &View, row: &Row, bound: u64) -> WorstCase {
    let case = view.first_case(Search::Pruned, bound - 1, LIMITS.window);
    let Case { alignments, q } = case.expect("a response that is the bound");
    let meeting = alignments.iter().max().expect("a group");
    let starts: Starts = std::array::from_fn(|group| meeting - alignments[group]);
    let first = (0..).find(|n| release(row, &starts, *n) >= *meeting).expect("a later release");
    WorstCase { starts, instance: first + q - 1, response: bound }
}

/// The response of an instance of a row in the schedule with these starts and the largest lengths, up to
/// a tick; none if it does not start before.
pub fn longest_response(
    lengths: &LengthTable,
    rows: &[Row],
    row: usize,
    starts: &Starts,
    instance: u64,
    until: u64,
) -> Option<u64> {
    let mut largest = |row: &Row| length(lengths, row);
    let list = schedule(rows, starts, until, &mut largest);
    let sent = list.iter().find(|sent| sent.row == row && sent.instance == instance);
    sent.map(|sent| sent.end() - release(&rows[row], starts, instance))
}

/// The same of a file, by the lengths of another; with the row.
pub fn worst_files(lengths: &[u8], file: &[u8]) -> Result<(Row, Worst), Refusal> {
    let lengths = lengths::parse(lengths)?;
    let rows = table::parse(file)?;
    Ok((rows[last_row(&rows)], worst_rows(&lengths, &rows)))
}

/// The lines of an input's last frame, or the one line of a refusal.
pub fn worst(input: &[u8]) -> String {
    let (lengths, file) = lengths::split(input);
    worst_files(lengths, file).map_or_else(refusal_line, |(row, worst)| {
        let case = worst.case.map_or(String::new(), |case| case.lines());
        listing_line(&row, worst.judgement) + &case
    })
}

impl WorstCase {
    /// The numbers shown to C: the starts of groups 1 to 16, the instance, and its response.
    pub fn numbers(&self) -> Vec<u32> {
        let numbers = self.starts.iter().chain([&self.instance, &self.response]);
        numbers.map(|number| *number as u32).collect()
    }

    /// A line for each group, and one for the instance and its response.
    fn lines(&self) -> String {
        let groups = (1..).zip(&self.starts);
        let groups: String =
            groups.map(|(group, start)| format!("{group:>3}{start:>8}\n")).collect();
        format!("{groups}{:>8}{:>8}\n", self.instance, self.response)
    }
}
