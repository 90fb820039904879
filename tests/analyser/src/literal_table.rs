//! What is wrong with a table, all of it at once and not in the order of the checks: the refusal is
//! the least of these by its place in that order. It shares only the columns' widths with the reader.

use crate::table::{Refusal, WIDTHS};
use std::fmt::Display;

/// Something that is wrong: the line, or beyond all lines the group; the step in that line; the
/// number.
#[derive(Clone, Copy, Debug, PartialEq, Eq, PartialOrd, Ord)]
pub struct Fault {
    pub place: Place,
    step: usize,
    pub number: u32,
}

#[derive(Clone, Copy, Debug, PartialEq, Eq, PartialOrd, Ord)]
pub enum Place {
    Whole,
    Line(u32),
    Group(u32),
}

/// A line's values; none where a column is broken.
type Values = [Option<u64>; 8];

/// Steps of a line: its end, then two for each column, then 5 and 15.
const DUPLICATE: usize = 17;
const SECOND_GROUP: usize = 18;

/// The first of the faults.
pub fn refusal(faults: &[Fault]) -> Option<Refusal> {
    faults.iter().min().map(|fault| {
        let (Place::Line(place) | Place::Group(place)) = fault.place else {
            return Refusal { number: fault.number, place: 0 };
        };
        Refusal { number: fault.number, place }
    })
}

/// All that is wrong with a file. Where its size is, nothing else is looked at.
pub fn faults_of_file(file: &[u8]) -> Vec<Fault> {
    let whole = |number| vec![Fault { place: Place::Whole, step: 0, number }];
    if file.len() % 46 > 0 || file.is_empty() {
        return whole(1);
    }
    if file.len() > 46 * 64 {
        return whole(2);
    }
    let mut faults = Vec::new();
    let mut lines = Vec::new();
    for (line, bytes) in (1..).zip(file.chunks(46)) {
        let mut add = |step, number| faults.push(Fault { place: Place::Line(line), step, number });
        if bytes[45] != 10 {
            add(0, 1);
        }
        let values = std::array::from_fn(|column| value(bytes, column));
        let broken = (0..8).filter(|column| values[*column].is_none());
        broken.for_each(|column| add(1 + 2 * column, 3));
        lines.push(values);
    }
    faults.extend(faults_of_lines(&lines));
    faults
}

/// All that is wrong with rows in memory.
pub fn faults_of_words(words: &[u32]) -> Vec<Fault> {
    if !(8..=512).contains(&words.len()) || words.len() % 8 > 0 {
        return vec![Fault { place: Place::Whole, step: 0, number: 10 }];
    }
    let line = |words: &[u32]| std::array::from_fn(|column| Some(words[column].into()));
    faults_of_lines(&words.chunks(8).map(line).collect::<Vec<Values>>())
}

/// A column that reads as its own number would be written.
fn value(line: &[u8], column: usize) -> Option<u64> {
    let start: usize = WIDTHS[..column].iter().sum();
    let text = std::str::from_utf8(&line[start..start + WIDTHS[column]]).ok()?;
    let value: u64 = text.trim_start_matches(' ').parse().ok()?;
    (text == right(value, WIDTHS[column])).then_some(value)
}

fn right(value: impl Display, width: usize) -> String {
    format!("{value:>width$}")
}

/// What is wrong with values, with lines beside each other, and with groups.
fn faults_of_lines(lines: &[Values]) -> Vec<Fault> {
    let mut faults = Vec::new();
    for (at, values) in lines.iter().enumerate() {
        let mut add = |step, number| {
            faults.push(Fault { place: Place::Line(at as u32 + 1), step, number });
        };
        outside(values).into_iter().for_each(|column| add(2 + 2 * column, 4));
        let [node, group, identifier, kind, ..] = *values;
        let is_read = |columns: &[Option<u64>]| columns.iter().all(Option::is_some);
        let same_frame = |line: &Values| line[2..4] == [identifier, kind];
        if is_read(&[identifier, kind]) && lines[..at].iter().any(same_frame) {
            add(DUPLICATE, 5);
        }
        let elsewhere = |line: &Values| line[0] == node && line[1].is_some() && line[1] != group;
        if is_read(&[node, group]) && lines[..at].iter().any(elsewhere) {
            add(SECOND_GROUP, 15);
        }
    }
    faults.extend((1..=16).flat_map(|group| faults_of_group(lines, group)));
    faults
}

/// The columns whose values are outside their limits; the identifier's is the kind.
fn outside(values: &Values) -> Vec<usize> {
    let [node, group, identifier, kind, payload, period, offset, claim] = *values;
    let limits = |value: Option<u64>, least, most| value.is_some_and(|v| v < least || v > most);
    let identifiers = match kind {
        Some(11) => 2047,
        Some(29) => 536_870_911,
        _ => 9_999_999_999,
    };
    let is_outside = [
        limits(node, 1, 16),
        limits(group, 1, 16),
        false,
        kind.is_some_and(|kind| ![11, 29].contains(&kind)) || limits(identifier, 0, identifiers),
        limits(payload, 0, 8),
        limits(period, 1, 1_000_000),
        limits(offset, 0, 1_000_000),
        limits(claim, 1, 1_000_000),
    ];
    (0..8).filter(|column| is_outside[*column]).collect()
}

/// 6 and 7 of a group, by multiples of its longest period; of the periods within their limits.
fn faults_of_group(lines: &[Values], group: u64) -> Vec<Fault> {
    let of_group = lines.iter().filter(|line| line[1] == Some(group));
    let periods = of_group.filter_map(|line| line[5].filter(|p| (1..=1_000_000).contains(p)));
    let periods: Vec<u64> = periods.collect();
    let Some(longest) = periods.iter().max() else {
        return Vec::new();
    };
    let is_common = |multiple: &u64| periods.iter().all(|period| multiple % period == 0);
    let mut multiples = (1..=1_000_000 / longest).map(|times| times * longest);
    let place = Place::Group(group as u32);
    match multiples.find(is_common) {
        None => vec![Fault { place, step: 0, number: 6 }],
        Some(common) if periods.iter().map(|period| common / period).sum::<u64>() > 256 => {
            vec![Fault { place, step: 1, number: 7 }]
        }
        Some(_) => Vec::new(),
    }
}
