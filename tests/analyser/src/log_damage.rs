//! Damage to logs in their notation: what makes a log no schedule, or another one.

use crate::lengths::{length, LengthTable};
use crate::log::{
    end, Line, IDENTIFIER, KIND, LAST_TICK, LENGTH, MOST_LINES, QUEUEING, START, WIDTHS,
};
use crate::log_check::row_of;
use crate::random::Random;
use crate::table::{self, Row, GROUP, OFFSET, PERIOD};

/// What a log is of.
#[derive(Clone, Copy)]
pub struct Of<'a> {
    pub lengths: &'a LengthTable,
    pub rows: &'a [Row],
}

type Damage = fn(&mut Random, Of, &mut Vec<Line>);

/// The names of all damages, and what they do to a log that has lines.
pub const DAMAGES: [(&str, Damage); 15] = [
    ("cut", cut),
    ("start changed", change_start),
    ("identifier changed", change_identifier),
    ("kind changed", change_kind),
    ("queueing changed", change_queueing),
    ("length changed", change_length),
    ("lines swapped", swap),
    ("line dropped", drop_line),
    ("line doubled", double_line),
    ("order of two turned", turn),
    ("group shifted", shift_group),
    ("group dropped", drop_group),
    ("later starts moved", move_starts),
    ("all later moved", move_all),
    ("length and later starts", stretch_line),
];

/// The way in which a group's queueings are shifted.
pub const GROUP_SHIFTED: usize = 10;

/// Damages a log in one way.
pub fn damage(random: &mut Random, of: Of, lines: &mut Vec<Line>, way: usize) {
    if lines.is_empty() {
        let row = random.pick(of.rows);
        let [identifier, kind] = [row[table::IDENTIFIER], row[table::KIND]].map(u64::from);
        let tick = random.pick(&[0, u64::from(row[OFFSET]), LAST_TICK]);
        lines.push([tick, identifier, kind, tick, 1]);
    }
    (DAMAGES[way].1)(random, of, lines);
    lines.truncate(MOST_LINES);
    for line in lines {
        for (value, width) in line.iter_mut().zip(WIDTHS) {
            *value %= 10_u64.pow(width as u32);
        }
    }
}

fn some(random: &mut Random, lines: &[Line]) -> usize {
    random.below(lines.len() as u64) as usize
}

/// A few ticks more or less.
fn beside(random: &mut Random, tick: u64) -> u64 {
    let more = random.pick(&[1, 1, 2, 3, 10, 100]);
    random.pick(&[tick + more, tick.saturating_sub(more)])
}

fn cut(random: &mut Random, _: Of, lines: &mut Vec<Line>) {
    lines.truncate(some(random, lines));
}

fn change_start(random: &mut Random, _: Of, lines: &mut Vec<Line>) {
    let at = some(random, lines);
    let (start, before) = (lines[at][START], lines[at.saturating_sub(1)]);
    let near = beside(random, start);
    let queueing = lines[at][QUEUEING];
    let ticks = [near, near, near, 0, queueing, before[START], end(&before), LAST_TICK];
    lines[at][START] = random.pick(&[&ticks[..], &[LAST_TICK + 1]].concat());
}

/// Another frame's, one that no frame has, or what fewer bits would take for it.
fn change_identifier(random: &mut Random, of: Of, lines: &mut Vec<Line>) {
    let at = some(random, lines);
    let other = u64::from(random.pick(of.rows)[table::IDENTIFIER]);
    let own = lines[at][IDENTIFIER];
    let choices = [other, other, own + 1, own << 18, own >> 18, own + (1 << 32), 9_999_999_999];
    lines[at][IDENTIFIER] = random.pick(&choices);
}

fn change_kind(random: &mut Random, _: Of, lines: &mut Vec<Line>) {
    let at = some(random, lines);
    let other = 40 - lines[at][KIND].min(40);
    lines[at][KIND] = random.pick(&[other, other, other, 0, 12, 30, 999, lines[at][KIND] + 256]);
}

fn change_queueing(random: &mut Random, of: Of, lines: &mut Vec<Line>) {
    let at = some(random, lines);
    let queueing = lines[at][QUEUEING];
    let near = beside(random, queueing);
    let period = row_of(of.rows, &lines[at]).map_or(1, |row| of.rows[row][PERIOD].into());
    let ticks = [near, near, queueing + period, queueing.saturating_sub(period), 0, LAST_TICK];
    let more = [lines[at][START], LAST_TICK + 1];
    lines[at][QUEUEING] = random.pick(&[&ticks[..], &more].concat());
}

/// None, one, the largest, beside it, or any.
fn change_length(random: &mut Random, of: Of, lines: &mut Vec<Line>) {
    let at = if random.percent(30) { lines.len() - 1 } else { some(random, lines) };
    let largest = largest(of, &lines[at]);
    let ticks = [0, 0, 1, largest - 1, largest, largest + 1, largest + 1, largest + 256, 9999];
    lines[at][LENGTH] = random.pick(&ticks);
}

fn largest(of: Of, line: &Line) -> u64 {
    row_of(of.rows, line).map_or(400, |row| length(of.lengths, &of.rows[row]))
}

fn swap(random: &mut Random, _: Of, lines: &mut Vec<Line>) {
    let at = some(random, lines);
    let other = if random.percent(70) { at.max(1) - 1 } else { some(random, lines) };
    lines.swap(at, other);
}

fn drop_line(random: &mut Random, _: Of, lines: &mut Vec<Line>) {
    lines.remove(some(random, lines));
}

fn double_line(random: &mut Random, _: Of, lines: &mut Vec<Line>) {
    let at = some(random, lines);
    let mut line = lines[at];
    if random.percent(50) {
        line[START] = end(&line);
    }
    lines.insert(at + 1, line);
}

/// Two neighbours in the other order, the first of them where the first was: often both waited.
fn turn(random: &mut Random, _: Of, lines: &mut Vec<Line>) {
    let at = some(random, lines);
    if at + 1 == lines.len() {
        return;
    }
    let [mut first, mut second]: [Line; 2] = [lines[at + 1], lines[at]];
    first[START] = second[START];
    second[START] = end(&first);
    lines[at..at + 2].copy_from_slice(&[first, second]);
}

/// The queueings of a group earlier or later. Mostly it is so much earlier that its first line was queued
/// when an earlier line started, or just before: that one may then be wrong, though the first line itself,
/// which starts where another ends, is not.
fn shift_group(random: &mut Random, of: Of, lines: &mut Vec<Line>) {
    let waited = |at: &usize| {
        let is_of = |line: &Line| group_of(of, line) == group_of(of, &lines[*at]);
        lines[*at][START] == end(&lines[at - 1]) && !lines[..*at].iter().any(is_of)
    };
    let firsts: Vec<usize> = (1..lines.len()).filter(waited).collect();
    if firsts.is_empty() || random.percent(25) {
        let group = group_of(of, &random.pick(lines));
        return move_group(random, of, lines, group);
    }
    let first = random.pick(&firsts);
    let before = lines[random.below(first as u64) as usize][START];
    let wanted = before.saturating_sub(random.pick(&[0, 0, 1, 2]));
    let ticks = lines[first][QUEUEING].saturating_sub(wanted);
    let group = group_of(of, &lines[first]);
    for line in lines.iter_mut().filter(|line| group_of(of, line) == group) {
        line[QUEUEING] = line[QUEUEING].saturating_sub(ticks);
    }
}

/// All queueings of a group earlier or later.
fn move_group(random: &mut Random, of: Of, lines: &mut [Line], group: Option<u32>) {
    let ticks = random.pick(&[1, 2, 5, 20, 60, 200, 1000]);
    let earlier = random.percent(75);
    for line in lines.iter_mut().filter(|line| group_of(of, line) == group) {
        let queueing = &mut line[QUEUEING];
        *queueing = if earlier { queueing.saturating_sub(ticks) } else { *queueing + ticks };
    }
}

fn group_of(of: Of, line: &Line) -> Option<u32> {
    row_of(of.rows, line).map(|row| of.rows[row][GROUP])
}

fn drop_group(random: &mut Random, of: Of, lines: &mut Vec<Line>) {
    let group = group_of(of, &random.pick(lines));
    lines.retain(|line| group_of(of, line) != group);
}

/// From a line on, all starts earlier or later.
fn move_starts(random: &mut Random, _: Of, lines: &mut Vec<Line>) {
    let at = some(random, lines);
    move_columns(random, &mut lines[at..], &[START]);
}

/// From a line on, all starts and queueings.
fn move_all(random: &mut Random, _: Of, lines: &mut Vec<Line>) {
    let at = if random.percent(50) { 0 } else { some(random, lines) };
    move_columns(random, &mut lines[at..], &[START, QUEUEING]);
}

fn move_columns(random: &mut Random, lines: &mut [Line], columns: &[usize]) {
    let ticks = random.pick(&[1, 1, 2, 3, 100]);
    let later = random.percent(70);
    for line in lines {
        for column in columns {
            let value = &mut line[*column];
            *value = if later { *value + ticks } else { value.saturating_sub(ticks) };
        }
    }
}

/// Another length, and all later starts moved with its end.
fn stretch_line(random: &mut Random, of: Of, lines: &mut Vec<Line>) {
    let at = some(random, lines);
    let before = lines[at][LENGTH];
    lines[at][LENGTH] = random.between(1, largest(of, &lines[at]));
    let after = lines[at][LENGTH];
    for line in &mut lines[at + 1..] {
        line[START] = (line[START] + after).saturating_sub(before);
    }
}
