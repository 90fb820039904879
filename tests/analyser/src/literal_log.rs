//! Logs by document 02's words, slow: every start is tried, and the bus rule followed tick by tick. It
//! shares only types and the columns' widths with the fast path.

use crate::lengths::LengthTable;
use crate::literal_bus;
use crate::log::{Line, WIDTHS};
use crate::simulator::{Starts, Transmission};
use crate::table::{Refusal, Row};

/// Reads a log: each line must be what writing its five numbers gives.
pub fn read(log: &[u8]) -> Result<Vec<Line>, Refusal> {
    let broken = |place| Refusal { number: 18, place };
    if log.len() > 64_000 || log.len() / 40 * 40 != log.len() {
        return Err(broken(0));
    }
    let mut lines = Vec::new();
    for place in 0..log.len() / 40 {
        let bytes = &log[place * 40..][..40];
        lines.push(read_line(bytes).ok_or(broken(place as u32 + 1))?);
    }
    Ok(lines)
}

fn read_line(bytes: &[u8]) -> Option<Line> {
    let text = std::str::from_utf8(bytes).ok()?;
    let mut line = [0; 5];
    let mut written = String::new();
    for (value, width) in line.iter_mut().zip(WIDTHS) {
        let column = text.get(written.len()..written.len() + width)?;
        *value = column.trim_start_matches(' ').parse().ok()?;
        written += &format!("{value:>width$}");
    }
    written += "\n";
    let limits = line[0].max(line[3]) < 10_000_000_000;
    (written == text && limits).then_some(line)
}

/// About how many ticks there are to follow in a log of a table.
pub fn effort(rows: &[Row], lines: &[Line]) -> u64 {
    let most = lines.iter().map(|line| line[0] + line[4]).max().unwrap_or(0);
    let starts = groups(rows).iter().fold(1, |product: u64, _| product.saturating_mul(most + 1));
    starts.saturating_mul(most + 1)
}

/// The starts shown, or 19 at the first of the beginnings that fails.
pub fn check(lengths: &LengthTable, rows: &[Row], lines: &[Line]) -> Result<Starts, Refusal> {
    for count in 1..=lines.len() {
        if accepted(lengths, rows, &lines[..count]).is_empty() {
            return Err(Refusal { number: 19, place: count as u32 });
        }
    }
    let until = lines.last().map_or(0, |line| line[0] + line[4]);
    let found = accepted(lengths, rows, lines);
    let first = *found.first().expect("starts that are accepted");
    Ok(std::array::from_fn(|group| {
        if !has_line(rows, lines, group as u32 + 1) {
            return until;
        }
        assert!(found.iter().all(|starts| starts[group] == first[group]), "one start alone");
        first[group]
    }))
}

fn has_line(rows: &[Row], lines: &[Line], group: u32) -> bool {
    let is_sent = |row: &Row| lines.iter().any(|line| is_of(row, line));
    rows.iter().any(|row| row[1] == group && is_sent(row))
}

fn is_of(row: &Row, line: &Line) -> bool {
    u64::from(row[2]) == line[1] && u64::from(row[3]) == line[2]
}

/// The groups that have frames.
fn groups(rows: &[Row]) -> Vec<usize> {
    let has_frames = |group: &usize| rows.iter().any(|row| row[1] as usize == *group);
    (1..=16).filter(has_frames).collect()
}

/// All starts from 0 to the last end with which the lines are a schedule. A later start is as good as
/// that at the last end.
fn accepted(lengths: &LengthTable, rows: &[Row], lines: &[Line]) -> Vec<Starts> {
    let until = lines.last().map_or(0, |line| line[0] + line[4]);
    let groups = groups(rows);
    let mut found = Vec::new();
    let mut starts = [until; 16];
    groups.iter().for_each(|group| starts[group - 1] = 0);
    loop {
        if is_schedule(lengths, rows, &starts, lines, until) {
            found.push(starts);
        }
        // The next choice, as a clock goes on.
        let Some(place) = groups.iter().position(|group| starts[group - 1] < until) else {
            return found;
        };
        groups[..place].iter().for_each(|group| starts[group - 1] = 0);
        starts[groups[place] - 1] += 1;
    }
}

/// Whether the lines are all transmissions that start before a tick, each with a length it can have.
fn is_schedule(
    lengths: &LengthTable,
    rows: &[Row],
    starts: &Starts,
    lines: &[Line],
    until: u64,
) -> bool {
    let mut given = lines.iter().map(|line| line[4]);
    let list = literal_bus::schedule(rows, starts, until, &mut |_| given.next().unwrap_or(1));
    let same = |(sent, line): (&Transmission, &Line)| {
        let row = &rows[sent.row];
        let [_, group, _, kind, payload, period, offset, _] = row.map(u64::from);
        let queued = starts[group as usize - 1] + offset + sent.instance * period;
        let largest = lengths[usize::from(kind == 29)][payload as usize];
        let length = 1 <= line[4] && line[4] <= u64::from(largest);
        is_of(row, line) && length && [sent.start, queued] == [line[0], line[3]]
    };
    list.len() == lines.len() && list.iter().zip(lines).all(same)
}

/// The most busy ticks of a stretch, and the first tick of the first that has so many: every tick of
/// every stretch is looked at.
pub fn busiest(lines: &[Line], width: u64) -> (u64, u64) {
    let until = lines.last().map_or(0, |line| line[0] + line[4]);
    let is_busy = |tick: u64| lines.iter().any(|line| line[0] <= tick && tick < line[0] + line[4]);
    let busy: Vec<bool> = (0..until).map(is_busy).collect();
    let mut found = (0, 0);
    for first in (0..=until - width).rev() {
        let stretch = &busy[first as usize..(first + width) as usize];
        let count = stretch.iter().filter(|busy| **busy).count() as u64;
        if count >= found.0 {
            found = (count, first);
        }
    }
    found
}

/// The lines of a sheet behind its first one, each row's transmissions gathered by themselves.
pub fn responses(rows: &[Row], lines: &[Line]) -> String {
    let mut sheet = String::new();
    for row in rows {
        let of_row = lines.iter().filter(|line| is_of(row, line));
        let mut responses: Vec<u64> = of_row.map(|line| line[0] + line[4] - line[3]).collect();
        responses.sort_unstable();
        let greatest = responses.last().unwrap_or(&0);
        let sum: u64 = responses.iter().sum();
        sheet += &format!("{:>10}{:>5}{greatest:>11}{sum:>15}\n", row[2], responses.len());
    }
    sheet
}

/// The log that a seed gives, of all transmissions that start before a tick: the generator by
/// arithmetic of 32 bits, hyperperiods by trying, and the bus rule tick by tick.
pub fn simulated(lengths: &LengthTable, rows: &[Row], seed: u32, until: u64) -> Vec<Line> {
    let mut held = seed;
    let mut draw = move || {
        held ^= held << 13;
        held ^= held >> 17;
        held ^= held << 5;
        u64::from(held)
    };
    let mut starts = [0; 16];
    for group in groups(rows) {
        let of_group = || rows.iter().filter(|row| row[1] as usize == group);
        let is_common = |ticks: &u64| of_group().all(|row| ticks % u64::from(row[5]) == 0);
        starts[group - 1] = draw() % (1..).find(is_common).expect("a hyperperiod");
    }
    let mut length = |row: &Row| {
        let largest = lengths[usize::from(row[3] == 29)][row[4] as usize];
        1 + draw() % u64::from(largest)
    };
    let list = literal_bus::schedule(rows, &starts, until, &mut length);
    let line = |sent: Transmission| {
        let [_, group, identifier, kind, _, period, offset, _] = rows[sent.row].map(u64::from);
        let queued = starts[group as usize - 1] + offset + sent.instance * period;
        [sent.start, identifier, kind, queued, sent.length]
    };
    list.into_iter().map(line).collect()
}
