//! Tiny logs of tiny tables: the fast path beside the one that tries every start and goes tick by tick.

use crate::bus;
use crate::busiest::{self, Stretch};
use crate::lengths::{length, LengthTable, STANDARD};
use crate::literal_log;
use crate::log::{self, Line, LENGTH, QUEUEING, START};
use crate::log_check;
use crate::log_damage::{self, Of, DAMAGES};
use crate::random::{own_lengths, Random};
use crate::replay::{draw_starts, lines_of, Generator};
use crate::simulator::Starts;
use crate::table::{self, Row, GROUP};

/// Ticks that are followed for a log at the most.
const MOST_EFFORT: u64 = 25_000;

/// The lines at which 19 is told apart; the last one stands for those behind it too.
const PLACES: usize = 6;

#[derive(Default)]
pub struct LogTally {
    logs: u64,
    accepted: u64,
    /// Accepted logs in which a frame has no line.
    silent: u64,
    /// Logs refused with 19 by the place.
    refused: [u64; PLACES],
    /// Those where the schedule departs from an earlier line, by the start that the place's line gives.
    earlier: u64,
    /// Stretches that were searched for, and those that do not begin at 0.
    stretches: [u64; 2],
    /// Lines that were simulated, and those of them that waited.
    simulated: [u64; 2],
    /// Logs refused with 18: their size, a line.
    notation: [u64; 2],
    pub differences: u64,
}

/// Compares so many logs.
pub fn self_check(seed: u64, count: u64) -> LogTally {
    let mut random = Random::new(seed);
    let mut tally = LogTally::default();
    while tally.logs < count {
        let lengths = if random.percent(50) { STANDARD } else { own_lengths(&mut random) };
        let rows = tiny_table(&mut random, 1);
        let lines = tiny_log(&mut random, &lengths, &rows);
        if literal_log::effort(&rows, &lines) <= MOST_EFFORT {
            tally.logs += 1;
            tally.compare_checks(&lengths, &rows, &lines);
            tally.compare_readers(&mut random, &lines);
            tally.compare_simulators(&mut random, &lengths);
        }
    }
    tally
}

/// Up to three groups of a few frames, with short periods and some late offsets, in so many ticks.
fn tiny_table(random: &mut Random, ticks: u32) -> Vec<Row> {
    loop {
        let groups = random.between(1, 3);
        let rows = random.between(groups, 5);
        let rows: Vec<Row> = (0..rows).map(|_| tiny_row(random, groups, ticks)).collect();
        if table::check(&rows.concat()).is_ok() {
            return rows;
        }
    }
}

fn tiny_row(random: &mut Random, groups: u64, ticks: u32) -> Row {
    let group = random.between(1, groups) as u32 * 5;
    let kind = random.pick(&[11, 29]);
    let first = random.below(4) as u32;
    let identifier = if kind == 11 { first } else { first << 18 | random.below(2) as u32 };
    let period = random.pick(&[1, 2, 3, 4, 6, 8, 12]) * ticks;
    let offset = random.pick(&[0, 0, 1, 2, 3, 5, 9]) * ticks;
    [
        group + random.below(2) as u32,
        group,
        identifier,
        kind,
        random.below(9) as u32,
        period,
        offset,
        9,
    ]
}

/// A few transmissions, mostly short ones, and mostly some damage.
fn tiny_log(random: &mut Random, lengths: &LengthTable, rows: &[Row]) -> Vec<Line> {
    let starts: Starts = std::array::from_fn(|_| random.below(7));
    let most = random.pick(&[1, 2, 3, 3, 3, 400]);
    let mut draw = |row: &Row| random.between(1, most.min(length(lengths, row)));
    let count = draw(&rows[0]) * 2;
    let mut lines = bus::log_of(rows, &starts, count.min(6) as usize, &mut draw);
    for _ in 0..random.pick(&[0, 1, 1, 1, 2]) {
        let way = random.below(DAMAGES.len() as u64) as usize;
        log_damage::damage(random, Of { lengths, rows }, &mut lines, way);
    }
    lines
}

impl LogTally {
    fn compare_checks(&mut self, lengths: &LengthTable, rows: &[Row], lines: &[Line]) {
        let found = log_check::check_lines(lengths, rows, lines);
        match &found {
            Ok(_) => {
                self.accepted += 1;
                let sent =
                    |row| lines.iter().any(|line| log_check::row_of(rows, line) == Some(row));
                self.silent += u64::from(!(0..rows.len()).all(sent));
                self.compare_sheets(rows, lines);
            }
            Err(refusal) => {
                let place = refusal.place as usize;
                self.refused[PLACES.min(place) - 1] += 1;
                let departs = log_check::follow(lengths, rows, &lines[..place]);
                self.earlier += u64::from(departs.is_err_and(|line| line < place));
            }
        }
        self.same(found == literal_log::check(lengths, rows, lines), rows, lines);
    }

    /// The stretches of every width, and the whole sheet of the last.
    fn compare_sheets(&mut self, rows: &[Row], lines: &[Line]) {
        let until = log::last_end(lines);
        for width in 1..=until {
            let Stretch { busy, first } = busiest::stretch(lines, width);
            self.stretches[0] += 1;
            self.stretches[1] += u64::from(first > 0);
            self.same((busy, first) == literal_log::busiest(lines, width), rows, lines);
        }
        if until > 0 {
            // All that is busy is the sum of the lengths.
            let busy: u64 = lines.iter().map(|line| line[LENGTH]).sum();
            let responses = literal_log::responses(rows, lines);
            let sheet = format!("{busy:>11}{:>11}\n{responses}", 0);
            self.same(busiest::sheet_of(rows, lines, until) == sheet, rows, lines);
        }
    }

    /// A log by a seed, which is accepted with the starts drawn where a group has a line.
    fn compare_simulators(&mut self, random: &mut Random, lengths: &LengthTable) {
        let rows = &tiny_table(random, random.clone().pick(&[1, 20, 60, 61, 150]));
        let seed = random.pick(&[1, 2, 1 << 31, u32::MAX, random.clone().word() as u32 | 1]);
        let count = random.pick(&[1, 2, 5, 10, 15]);
        let lines = lines_of(lengths, rows, seed, count);
        let last = lines[count - 1][START];
        let ticked = literal_log::simulated(lengths, rows, seed, last + 1);
        self.same(lines == ticked, rows, &lines);
        self.simulated[0] += count as u64;
        self.simulated[1] +=
            lines.iter().filter(|line| line[QUEUEING] < line[START]).count() as u64;
        let drawn = draw_starts(rows, &mut Generator::new(seed));
        let shown = log_check::check_lines(lengths, rows, &lines).unwrap_or([u64::MAX; 16]);
        for group in 1..=16 {
            let is_of = |row: usize| rows[row][GROUP] == group;
            let sent = lines.iter().any(|line| log_check::row_of(rows, line).is_some_and(is_of));
            let at = group as usize - 1;
            let wanted = if sent { drawn[at] } else { log::last_end(&lines) };
            self.same(shown[at] == wanted, rows, &lines);
        }
    }

    /// A log with a byte or its size changed, or not.
    fn compare_readers(&mut self, random: &mut Random, lines: &[Line]) {
        let mut log = log::file_of(lines);
        for _ in 0..random.below(3) {
            if !log.is_empty() {
                let at = random.below(log.len() as u64) as usize;
                log[at] = random.pick(b"  0123456789\n\r\t+-x\xff");
            }
        }
        match random.below(20) {
            0 => log.push(b'\n'),
            1 => log.truncate(39),
            2 => log = log.into_iter().cycle().take(random.pick(&[64_000, 64_040])).collect(),
            _ => (),
        }
        let found = log::parse(&log);
        if let Err(refusal) = &found {
            self.notation[usize::from(refusal.place > 0)] += 1;
        }
        self.same(found == literal_log::read(&log), &[], lines);
    }

    fn same(&mut self, same: bool, rows: &[Row], lines: &[Line]) {
        if !same {
            self.differences += 1;
            eprintln!("log {lines:?} differs with table {rows:?}");
        }
    }

    pub fn print(&self) {
        let [size, line] = self.notation;
        eprintln!("logs accepted: {}, {} with a silent frame", self.accepted, self.silent);
        eprintln!("logs refused with 19 by place: {:?}", self.refused);
        eprintln!("logs refused for the start that a later line gives: {}", self.earlier);
        eprintln!("logs refused with 18: {size} for their size, {line} at a line");
        let [stretches, later] = self.stretches;
        eprintln!("stretches: {stretches}, {later} that do not begin at 0");
        let [sent, waited] = self.simulated;
        eprintln!("lines simulated by seeds: {sent}, {waited} that waited");
        println!("{} logs, {} differences", self.logs, self.differences);
    }
}
