//! A search for tables that the library takes long to list: the benchmark's tables are changed a
//! little, over and over, and what takes longer is kept.

use crate::bench::{input_of, library_listing};
use crate::bench_sets::{sets, Table};
use analyser::bounds::rank;
use analyser::lengths::LengthTable;
use analyser::random::{own_lengths, Random};
use analyser::table::{
    self, Row, CLAIM, GROUP, IDENTIFIER, KIND, MOST_LINES, NODE, NODES, OFFSET, PAYLOAD, PERIOD,
};
use std::time::{Duration, Instant};
use std::{fs, io};

/// So many tables are kept.
const KEPT: usize = 60;
/// A change is kept if it takes so many times as long.
const SLOWER: f64 = 1.02;

const LONGEST_PERIOD: u64 = 1_000_000;

/// Lengths, rows in order of rank, and the seconds that their listing takes.
struct Timed {
    lengths: LengthTable,
    rows: Vec<Row>,
    seconds: f64,
}

impl Timed {
    fn new(lengths: LengthTable, rows: Vec<Row>) -> Timed {
        Timed { lengths, rows, seconds: f64::INFINITY }.again()
    }

    /// Timed once more: the lesser time counts, since other work on the machine only adds to it.
    fn again(self) -> Timed {
        let input = input_of(&self.lengths, &self.rows);
        let start = Instant::now();
        library_listing(&input);
        Timed { seconds: self.seconds.min(start.elapsed().as_secs_f64()), ..self }
    }

    fn is_slower(&self, other: &Timed) -> bool {
        self.seconds > SLOWER * other.seconds
    }
}

/// Searches for so many minutes and prints each table that takes longer than all before it; the
/// last of them is saved if wanted.
pub fn search(seed: u64, minutes: u64, save: Option<&str>) -> io::Result<bool> {
    let random = &mut Random::new(seed);
    let begin = Instant::now();
    let mut kept: Vec<Timed> = starts().collect();
    sort(&mut kept);
    println!("seed {seed}, {:.2} s at first", kept[0].seconds);
    let mut tried = 0;
    while begin.elapsed() < Duration::from_secs(60 * minutes) {
        let [one, other] = [0; 2].map(|_| random.below(kept.len() as u64) as usize);
        let parent = &kept[one.min(other)];
        let rows = changed(random, &parent.rows, &kept[other].rows);
        let lengths = if random.percent(5) { own_lengths(random) } else { parent.lengths };
        if table::parse(&table::file_of(&rows)).is_err() {
            continue;
        }
        tried += 1;
        let timed = Timed::new(lengths, rows);
        if !timed.is_slower(parent) {
            continue;
        }
        let timed = timed.again();
        if timed.is_slower(&kept[0]) {
            println!("table {tried}: {:.2} s", timed.seconds);
            save.map_or(Ok(()), |path| fs::write(path, input_of(&timed.lengths, &timed.rows)))?;
        }
        if timed.is_slower(parent) {
            keep(random, &mut kept, timed);
        }
    }
    println!("{tried} tables, {:.2} s at the most", kept[0].seconds);
    Ok(true)
}

/// The benchmark's tables.
fn starts() -> impl Iterator<Item = Timed> {
    let tables = sets().into_iter().flat_map(|(_, tables)| tables);
    tables.map(|Table { lengths, mut rows, .. }| {
        rows.sort_by_key(rank);
        Timed::new(lengths, numbered(rows))
    })
}

/// The same rows in this order of rank, with claims of 1: the exact bound is asked for wherever
/// there is one.
fn numbered(mut rows: Vec<Row>) -> Vec<Row> {
    for (identifier, row) in rows.iter_mut().enumerate() {
        row[IDENTIFIER] = identifier as u32;
        row[KIND] = 11;
        row[CLAIM] = 1;
    }
    rows
}

/// The slowest first.
fn sort(kept: &mut [Timed]) {
    kept.sort_by(|one, other| other.seconds.total_cmp(&one.seconds));
}

/// Adds a table; where that is too many, one of the faster third goes.
fn keep(random: &mut Random, kept: &mut Vec<Timed>, timed: Timed) {
    kept.push(timed);
    sort(kept);
    if kept.len() > KEPT {
        kept.remove(random.between(2 * KEPT as u64 / 3, KEPT as u64) as usize);
    }
}

/// The rows after one to three changes. They may break a limit.
fn changed(random: &mut Random, rows: &[Row], other: &[Row]) -> Vec<Row> {
    let mut rows = rows.to_vec();
    for _ in 0..random.between(1, 3) {
        match random.below(16) {
            0..=7 => change_row(random, &mut rows),
            8..=11 => change_rows(random, &mut rows),
            12..=14 => change_node(random, &mut rows),
            _ => replace_node(random, &mut rows, other),
        }
    }
    numbered(rows)
}

fn any(random: &mut Random, rows: &[Row]) -> usize {
    random.below(rows.len() as u64) as usize
}

/// Another payload, offset or period.
fn change_row(random: &mut Random, rows: &mut [Row]) {
    let model = random.pick(rows);
    let at = any(random, rows);
    let row = &mut rows[at];
    let factor = random.between(2, 8) as u32;
    match random.below(7) {
        0 => row[PAYLOAD] = random.below(9) as u32,
        1 => row[OFFSET] = random.below(row[PERIOD].into()) as u32,
        2 => row[OFFSET] += random.below(300) as u32,
        3 => row[OFFSET] = row[OFFSET].saturating_sub(random.below(300) as u32),
        4 => row[OFFSET] = model[OFFSET],
        5 => row[PERIOD] = model[PERIOD],
        _ if row[PERIOD] % factor == 0 => row[PERIOD] /= factor,
        _ => row[PERIOD] *= factor,
    }
    row[OFFSET] %= row[PERIOD];
}

/// A row more, a row less, another rank, another node.
fn change_rows(random: &mut Random, rows: &mut Vec<Row>) {
    let (at, to) = (any(random, rows), any(random, rows));
    match random.below(4) {
        0 => {
            let offset = random.below(rows[at][PERIOD].into()) as u32;
            rows.insert(to, rows[at]);
            rows[to][OFFSET] = offset;
            rows.truncate(MOST_LINES);
        }
        1 if rows.len() > 1 => {
            rows.remove(at);
        }
        2 => rows.swap(at, to),
        _ => set_node(&mut rows[at], random.between(1, NODES.into()) as u32),
    }
}

/// Each node is a group by itself, as in all of the benchmark's tables.
fn set_node(row: &mut Row, node: u32) {
    (row[NODE], row[GROUP]) = (node, node);
}

/// All offsets of a node later by as much, or all its periods longer in the same ratio.
fn change_node(random: &mut Random, rows: &mut [Row]) {
    let node = random.pick(rows)[NODE];
    let later = random.below(2000) as u32;
    let longer = random.between(0, 40);
    let scaled = random.percent(50);
    let of_node = || rows.iter().filter(|row| row[NODE] == node);
    let base = of_node().map(|row| u64::from(row[PERIOD])).min().expect("a row of the node");
    for row in rows.iter_mut().filter(|row| row[NODE] == node) {
        if scaled {
            let period = u64::from(row[PERIOD]) / base * (base + longer).saturating_sub(20);
            row[PERIOD] = period.clamp(1, LONGEST_PERIOD) as u32;
        } else {
            row[OFFSET] += later;
        }
        row[OFFSET] %= row[PERIOD];
    }
}

/// The frames of a node give way to those of another table's node.
fn replace_node(random: &mut Random, rows: &mut Vec<Row>, other: &[Row]) {
    let (node, from) = (random.pick(rows)[NODE], random.pick(other)[NODE]);
    rows.retain(|row| row[NODE] != node);
    for row in other.iter().filter(|row| row[NODE] == from) {
        let at = random.between(0, rows.len() as u64) as usize;
        rows.insert(at, *row);
        set_node(&mut rows[at], node);
    }
    rows.truncate(MOST_LINES);
}
