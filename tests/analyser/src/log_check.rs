//! Whether a log is the beginning of a schedule that the table and the bus rule allow, and the starts
//! that are shown of it (document 02, request 10).

use crate::bus::{Begun, Bus};
use crate::lengths::{self, length, LengthTable};
use crate::listing::refusal_line;
use crate::log::{self, last_end, Line, LENGTH, QUEUEING, START};
use crate::simulator::Starts;
use crate::table::{self, refuse, Refusal, Row, GROUP, GROUPS, OFFSET};

/// What the command check-log prints: a line for each group, or the one line of a refusal. The input is
/// a file of lengths and then that of a table.
pub fn check_log(input: &[u8], log: &[u8]) -> String {
    let (lengths, table) = lengths::split(input);
    let starts = check_files(lengths, table, log);
    starts.map_or_else(refusal_line, |starts| starts_text(&starts))
}

/// Group (3) and start (11).
pub fn starts_text(starts: &Starts) -> String {
    let line = |(group, start): (u32, &u64)| format!("{group:>3}{start:>11}\n");
    (1..).zip(starts).map(line).collect()
}

/// The starts shown: 13, 14, the table's checks, 18, then 19.
pub fn check_files(lengths: &[u8], table: &[u8], log: &[u8]) -> Result<Starts, Refusal> {
    let lengths = lengths::parse(lengths)?;
    let rows = table::parse(table)?;
    check_lines(&lengths, &rows, &log::parse(log)?)
}

/// The starts shown of a log in its notation; 19 at the shortest beginning that fails. Where a
/// beginning fails, all longer ones do: a shorter one of a schedule's list is that of the same schedule
/// up to an earlier tick. So the place is found by halving.
pub fn check_lines(lengths: &LengthTable, rows: &[Row], lines: &[Line]) -> Result<Starts, Refusal> {
    if let Ok(starts) = follow(lengths, rows, lines) {
        return Ok(starts);
    }
    let (mut accepted, mut failing) = (0, lines.len());
    while failing - accepted > 1 {
        let middle = (accepted + failing) / 2;
        if follow(lengths, rows, &lines[..middle]).is_ok() {
            accepted = middle;
        } else {
            failing = middle;
        }
    }
    refuse(19, failing as u32)
}

/// The row of a line's frame.
pub fn row_of(rows: &[Row], line: &Line) -> Option<usize> {
    let [_, identifier, kind, ..] = *line;
    let is_its = |row: &Row| [row[table::IDENTIFIER], row[table::KIND]].map(u64::from);
    rows.iter().position(|row| is_its(row) == [identifier, kind])
}

/// The starts with which the lines are all transmissions that start before the last end, or the first
/// line that is not as it would be. The bus rule gives the whole schedule from starts and lengths, so it
/// is followed from tick 0, and each transmission held against its line.
pub fn follow(lengths: &LengthTable, rows: &[Row], lines: &[Line]) -> Result<Starts, usize> {
    let sent: Vec<Option<usize>> = lines.iter().map(|line| row_of(rows, line)).collect();
    let starts = only_starts(rows, lines, &sent)?;
    let mut bus = Bus::new(rows, &starts);
    for (at, line) in lines.iter().enumerate() {
        let Begun { row, queueing, start } = bus.begin();
        let can_have = (1..=length(lengths, &rows[row])).contains(&line[LENGTH]);
        if sent[at] != Some(row) || [queueing, start] != [line[QUEUEING], line[START]] || !can_have
        {
            return Err(at + 1);
        }
        bus.end_after(line[LENGTH]);
    }
    Ok(starts)
}

/// The only starts that need be tried. The first line of a frame is its instance 0, since older
/// instances go first, and that is queued at the group's start + offset. A group without a line may
/// start at the last end: had an earlier start let some of its instances wait, none of them would have
/// been the best when a transmission started, so without them the same ones start at the same ticks;
/// and what is queued at the last end or later takes no part in a list up to that tick.
fn only_starts(rows: &[Row], lines: &[Line], sent: &[Option<usize>]) -> Result<Starts, usize> {
    let mut starts = [last_end(lines); GROUPS as usize];
    for (start, group) in starts.iter_mut().zip(1..) {
        let is_of = |row: &Option<usize>| row.is_some_and(|row| rows[row][GROUP] == group);
        if let Some((at, row)) = sent.iter().enumerate().find(|(_, row)| is_of(row)) {
            let offset = row.map_or(0, |row| u64::from(rows[row][OFFSET]));
            *start = lines[at][QUEUEING].checked_sub(offset).ok_or(at + 1)?;
        }
    }
    Ok(starts)
}
