//! The busiest stretch of a log, and what was seen of each frame (document 02, request 11).

use crate::lengths;
use crate::listing::refusal_line;
use crate::log::{self, end, last_end, Line, LENGTH, QUEUEING, START};
use crate::log_check::{check_lines, row_of};
use crate::table::{self, refuse, Refusal, Row, IDENTIFIER};

/// Busy ticks of a stretch, and its first tick.
#[derive(Clone, Copy, Debug, PartialEq, Eq)]
pub struct Stretch {
    pub busy: u64,
    pub first: u64,
}

/// What was seen of a frame: instances, the greatest response, the sum of responses.
#[derive(Clone, Copy, Debug, Default, PartialEq, Eq)]
pub struct Seen {
    pub instances: u64,
    pub greatest: u64,
    pub sum: u64,
}

/// What the command busiest prints; the input is a file of lengths and then that of a table.
pub fn busiest(input: &[u8], log: &[u8], width: u64) -> String {
    let (lengths, table) = lengths::split(input);
    sheet_of_files(lengths, table, log, width).unwrap_or_else(refusal_line)
}

/// The sheet: 13, 14, the table's checks, 18, 19, then 20.
pub fn sheet_of_files(
    lengths: &[u8],
    table: &[u8],
    log: &[u8],
    width: u64,
) -> Result<String, Refusal> {
    let lengths = lengths::parse(lengths)?;
    let rows = table::parse(table)?;
    let lines = log::parse(log)?;
    check_lines(&lengths, &rows, &lines)?;
    if width == 0 || width > last_end(&lines) {
        return refuse(20, 0);
    }
    Ok(sheet_of(&rows, &lines, width))
}

/// The sheet of an accepted log and a width from 1 to the last end.
pub fn sheet_of(rows: &[Row], lines: &[Line], width: u64) -> String {
    let Stretch { busy, first } = stretch(lines, width);
    let line = |(row, Seen { instances, greatest, sum }): (&Row, Seen)| {
        format!("{:>10}{instances:>5}{greatest:>11}{sum:>15}\n", row[IDENTIFIER])
    };
    let sheet: String = rows.iter().zip(seen(rows, lines)).map(line).collect();
    format!("{busy:>11}{first:>11}\n{sheet}")
}

/// The earliest of the busiest stretches. A stretch a tick later has as many busy ticks, one more or one
/// less. The earliest busiest one is the first of all; or it has more than the one before it, and is
/// the last of all or the next has no more: then a transmission starts at its first tick or one ends
/// with it. So it is enough to look at tick 0, at every start, and a width before every end.
pub fn stretch(lines: &[Line], width: u64) -> Stretch {
    let starts = lines.iter().map(|line| line[START]);
    let before_ends = lines.iter().filter_map(|line| end(line).checked_sub(width));
    let most = last_end(lines) - width;
    let ticks = std::iter::once(0).chain(starts).chain(before_ends).filter(|tick| *tick <= most);
    let sums = sums(lines);
    let busy = |tick| busy_before(lines, &sums, tick + width) - busy_before(lines, &sums, tick);
    let stretches = ticks.map(|first| Stretch { busy: busy(first), first });
    let later_or_less = |stretch: &Stretch| (stretch.busy, std::cmp::Reverse(stretch.first));
    stretches.max_by_key(later_or_less).expect("tick 0 at least")
}

/// The lengths of the lines before each, and of all.
fn sums(lines: &[Line]) -> Vec<u64> {
    let mut sums = vec![0];
    lines.iter().for_each(|line| sums.push(sums[sums.len() - 1] + line[LENGTH]));
    sums
}

/// Busy ticks before a tick: what started before it, without what of the last is still to come.
fn busy_before(lines: &[Line], sums: &[u64], tick: u64) -> u64 {
    let started = lines.partition_point(|line| line[START] < tick);
    let Some(last) = started.checked_sub(1) else {
        return 0;
    };
    sums[started] - end(&lines[last]).saturating_sub(tick)
}

/// What was seen of each row.
fn seen(rows: &[Row], lines: &[Line]) -> Vec<Seen> {
    let mut seen = vec![Seen::default(); rows.len()];
    for line in lines {
        let seen = &mut seen[row_of(rows, line).expect("a frame of the table")];
        let response = end(line) - line[QUEUEING];
        seen.instances += 1;
        seen.greatest = seen.greatest.max(response);
        seen.sum += response;
    }
    seen
}
