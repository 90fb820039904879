//! Random calls about logs: tables of many shapes, logs that they allow, and damage to both.

use crate::damage::{self, change_length, overwrite, BROKEN};
use crate::inputs::area;
use crate::lengths::{self, Given};
use crate::log_call::{LogCall, Task, FIRST, SEEN, STARTS};
use analyser::bus;
use analyser::lengths::{length, LengthTable};
use analyser::log::{
    self, end, last_end, Line, FIELDS, LAST_TICK, LINE, MOST_LINES, START, WIDTHS,
};
use analyser::log_damage::{self, Of, DAMAGES, GROUP_SHIFTED};
use analyser::random::{clustered, dense, stretched, Random};
use analyser::simulator::Starts;
use analyser::table::{
    self, group_hyperperiod, Row, GROUP, IDENTIFIER, KIND, OFFSET, PAYLOAD, PERIOD,
};

/// What a log is, beside the damages to its values.
pub const AS_SIMULATED: usize = DAMAGES.len();
pub const OTHER_TABLE: usize = DAMAGES.len() + 1;
pub const NOTATION: usize = DAMAGES.len() + 2;
pub const SIZE: usize = DAMAGES.len() + 3;
pub const SHAPES: usize = DAMAGES.len() + 4;

/// The name of a shape.
pub fn name(shape: usize) -> &'static str {
    match shape {
        AS_SIMULATED => "as simulated",
        OTHER_TABLE => "of another table",
        NOTATION => "notation broken",
        SIZE => "another size",
        _ => DAMAGES[shape].0,
    }
}

/// A call, and the shape of its log.
pub fn draw(random: &mut Random) -> (LogCall, usize) {
    let lengths = lengths::draw(random);
    let mut rows = some_table(random, &lengths);
    let shape = some_shape(random);
    let lines = shaped_log(random, Of { lengths: &lengths, rows: &rows }, shape);
    let task = task(random, &lines);
    let mut log = log::file_of(&lines);
    match shape {
        OTHER_TABLE => change_table(random, &mut rows),
        NOTATION => (0..random.between(1, 2)).for_each(|_| break_notation(random, &mut log)),
        SIZE => change_size(random, &mut log),
        _ => (),
    }
    let size = area(random, need(task, rows.len()));
    let (lengths, table) = in_front(random, &lengths, rows);
    (LogCall { lengths, table, log, task, size }, shape)
}

fn some_shape(random: &mut Random) -> usize {
    match random.below(100) {
        0..=29 => AS_SIMULATED,
        30..=35 => OTHER_TABLE,
        36..=47 => NOTATION,
        48..=53 => SIZE,
        54..=65 => GROUP_SHIFTED,
        _ => random.below(DAMAGES.len() as u64) as usize,
    }
}

/// A log with the values of its shape; now and then they are damaged in one more way.
fn shaped_log(random: &mut Random, of: Of, shape: usize) -> Vec<Line> {
    let mut lines = some_log(random, of.lengths, of.rows);
    if shape < DAMAGES.len() {
        log_damage::damage(random, of, &mut lines, shape);
    }
    if random.percent(6) {
        let way = random.below(DAMAGES.len() as u64) as usize;
        log_damage::damage(random, of, &mut lines, way);
    }
    lines
}

fn need(task: Task, rows: usize) -> usize {
    match task {
        Task::Check => STARTS,
        Task::Busiest(_) => FIRST + SEEN * rows,
        Task::Simulate(_, lines) => lines.min(MOST_LINES as u64 + 1) as usize * LINE,
    }
}

/// The files of lengths and table, now and then with faults.
fn in_front(random: &mut Random, lengths: &LengthTable, mut rows: Vec<Row>) -> (Vec<u8>, Vec<u8>) {
    let in_lengths = if random.percent(6) { random.between(1, 2) } else { 0 };
    let given = Given::damaged(random, lengths, in_lengths);
    let in_table = if random.percent(18) { random.between(1, 3) } else { 0 };
    let in_rows = random.below(in_table + 1);
    (0..in_rows).for_each(|_| damage::damage_rows(random, &mut rows));
    let mut table = damage::file_of(&rows);
    (in_rows..in_table).for_each(|_| damage::damage_file(random, &mut table));
    (given.file, table)
}

/// An accepted table: few groups or many, loads below and above 1, periods from one tick on.
fn some_table(random: &mut Random, lengths: &LengthTable) -> Vec<Row> {
    loop {
        let groups = random.pick(&[1, 2, 2, 3, 4, 6, 16]);
        let most = random.pick(&[1, 2, 4]);
        let mut rows = match random.below(10) {
            0..=4 => clustered(random, lengths, groups, most, (40, 300)),
            5..=6 => dense(random, lengths, 8),
            7 => stretched(random, groups, 6, 250),
            8 => stretched(random, groups, 6, 5000),
            _ => stretched(random, groups.min(3), 9, 1),
        };
        if random.percent(20) {
            share_identifier(random, &mut rows);
        }
        if table::check(&rows.concat()).is_ok() {
            return rows;
        }
    }
}

/// Gives a long frame the identifier of a short one.
fn share_identifier(random: &mut Random, rows: &mut [Row]) {
    let of_kind = |kind| (0..rows.len()).filter(|at| rows[*at][KIND] == kind).collect();
    let [short, long]: [Vec<usize>; 2] = [11, 29].map(of_kind);
    if !short.is_empty() && !long.is_empty() {
        rows[random.pick(&long)][IDENTIFIER] = rows[random.pick(&short)][IDENTIFIER];
    }
}

/// A log that the table allows.
fn some_log(random: &mut Random, lengths: &LengthTable, rows: &[Row]) -> Vec<Line> {
    let starts = some_starts(random, rows);
    let count = match random.below(50) {
        0..=6 => random.below(3),
        7..=28 => random.between(1, 15),
        29..=43 => random.between(16, 100),
        44..=47 => random.between(101, 400),
        _ => MOST_LINES as u64,
    };
    let manner = random.below(4);
    let mut draw = |row: &Row| {
        let largest = length(lengths, row);
        match manner {
            0 => largest,
            1 => random.pick(&[1, 1, 2, largest - 1, largest]),
            _ => random.between(1, largest),
        }
    };
    bus::log_of(rows, &starts, count as usize, &mut draw)
}

/// Together, close together, anywhere in a hyperperiod, or near the last tick; some groups far behind.
fn some_starts(random: &mut Random, rows: &[Row]) -> Starts {
    let manner = random.below(20);
    let last = LAST_TICK - random.pick(&[0, 100, 5000, 1_000_000]);
    let mut starts = std::array::from_fn(|at| match manner {
        0..=3 => 0,
        4..=8 => random.below(60),
        9..=12 => random.below(2000),
        13 => last - random.below(2000),
        _ => random.below(group_hyperperiod(rows, at as u32 + 1)),
    });
    if random.percent(30) {
        let far = random.pick(&[5000, 1_000_000, 100_000_000]);
        starts.iter_mut().for_each(|start| *start += far * random.pick(&[0, 0, 1]));
    }
    starts
}

/// Another offset, period, payload or group, with which the table is still accepted.
fn change_table(random: &mut Random, rows: &mut [Row]) {
    let before = rows.to_vec();
    loop {
        let at = random.below(rows.len() as u64) as usize;
        let group = random.pick(rows)[GROUP];
        let row = &mut rows[at];
        match random.below(5) {
            0 => row[OFFSET] = row[OFFSET].saturating_sub(1),
            1 => row[OFFSET] = (row[OFFSET] + 1).min(1_000_000),
            2 => row[PAYLOAD] = random.below(9) as u32,
            3 => row[PERIOD] = (row[PERIOD] * random.pick(&[1, 2, 3]) / 2).clamp(1, 1_000_000),
            _ => {
                let node = row[0];
                rows.iter_mut().filter(|row| row[0] == node).for_each(|row| row[GROUP] = group);
            }
        }
        if table::check(&rows.concat()).is_ok() {
            return;
        }
        rows.copy_from_slice(&before);
    }
}

/// A line feed, a column or a byte.
fn break_notation(random: &mut Random, log: &mut [u8]) {
    if log.is_empty() {
        return;
    }
    let line = random.below((log.len() / LINE) as u64) as usize * LINE;
    let column = random.below(FIELDS as u64) as usize;
    let at = line + WIDTHS[..column].iter().sum::<usize>();
    let field = at..at + WIDTHS[column];
    match random.below(8) {
        0 => log[line + LINE - 1] = random.pick(b" \r0x\0\x0b"),
        1..=4 => overwrite(&mut log[field], random.pick(BROKEN)),
        5 => overwrite(&mut log[field], b"99999999999"),
        6 => overwrite(&mut log[field], b"10000000000"),
        _ => log[line + random.below(LINE as u64) as usize] = random.word() as u8,
    }
}

/// Whole lines or not, up to 64000 bytes and beyond.
fn change_size(random: &mut Random, log: &mut Vec<u8>) {
    let size = random.pick(&[63_960, 63_999, 64_000, 64_001, 64_040, 64_080, 128_000]);
    match random.below(4) {
        0 if !log.is_empty() => *log = log.iter().copied().cycle().take(size).collect(),
        1 => {
            let odd = random.below(log.len() as u64 + 1) as usize;
            log.truncate(odd);
        }
        2 => log.push(random.pick(b"\n 0")),
        _ => change_length(random, log, LINE, MOST_LINES),
    }
}

fn task(random: &mut Random, lines: &[Line]) -> Task {
    match random.below(20) {
        0..=8 => Task::Check,
        9..=15 => Task::Busiest(width(random, lines)),
        _ => Task::Simulate(seed(random), wanted(random)),
    }
}

/// At the limits, beside a distance between edges, or any.
pub fn width(random: &mut Random, lines: &[Line]) -> u64 {
    let until = last_end(lines);
    match random.below(20) {
        0 => 0,
        1..=2 => 1,
        3..=4 => until,
        5 => until + 1,
        6 => until.saturating_sub(1),
        7 => random.pick(&[u64::MAX, 1 << 63, 1 << 32, (1 << 32) + until, u64::MAX - until]),
        8..=14 if !lines.is_empty() => {
            let [one, other] = [0; 2].map(|_| random.pick(lines));
            let edge = random.pick(&[one[START], end(&one)]);
            let other = random.pick(&[other[START], end(&other)]);
            (edge.abs_diff(other) + random.below(3)).saturating_sub(1)
        }
        _ => random.between(1, until.max(1)),
    }
}

fn seed(random: &mut Random) -> u32 {
    let any = random.word() as u32;
    random.pick(&[0, 1, 2, 1 << 31, u32::MAX, any, any, any, any, any])
}

fn wanted(random: &mut Random) -> u64 {
    match random.below(20) {
        0 => 0,
        1 => 1600,
        2 => 1601,
        3 => random.pick(&[u64::MAX, 1 << 32, (1 << 32) + 5, 1 << 63, 100_000]),
        4..=6 => 1,
        7..=8 => random.between(100, 1599),
        _ => random.between(2, 60),
    }
}
