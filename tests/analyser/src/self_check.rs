//! Small random tables through the fast, the pruned and the tick-by-tick path; files of lengths
//! through two readers; damaged tables through the checks and a list of all that is wrong; and logs.

use crate::bounds::View;
use crate::explain::explain_view;
use crate::judgement::{judge_view, Limits, Search};
use crate::lengths::{self, LengthTable, STANDARD};
use crate::literal;
use crate::literal_table::{faults_of_file, faults_of_words, refusal};
use crate::log_self_check;
use crate::random::{carts, clustered, dense, own_lengths, set_claim_under, stretched, Random};
use crate::table::{
    self, Refusal, Row, FIELDS, GROUP, GROUPS, IDENTIFIER, NODE, OFFSET, PAYLOAD, PERIOD,
};
use crate::table_cases::{damage_file, damage_words};

const MOST_SCENARIOS: u64 = 150;

#[derive(Default)]
struct Tally {
    tables: u64,
    rows: u64,
    differences: u64,
    verdicts: [u64; 13],
    /// Those of them where there are faults.
    faults: [u64; 13],
    apart: u64,
    later_queueings: u64,
    rough_only_without_window: u64,
    /// Files of lengths that are accepted, that break the notation, and the limits.
    files: [u64; 3],
    /// Cases that break a claim: at the first instance, and at a later one.
    cases: [u64; 2],
    /// Rows of tables where groups are nodes, and where a group has several.
    groups: [u64; 2],
    /// Rows of tables with late frames.
    late: u64,
    /// Damaged tables by the number of their refusal; accepted ones at 0.
    refusals: [u64; 16],
}

/// Prints the result; true if nothing differs.
pub fn self_check(seed: u64, count: u64) -> bool {
    let mut random = Random::new(seed);
    let mut tally = Tally::default();
    while tally.tables < count {
        let lengths = if random.percent(50) { STANDARD } else { own_lengths(&mut random) };
        let mut rows = small_table(&mut random, &lengths);
        if !cheap(&lengths, &rows) {
            continue;
        }
        let limits = Limits {
            window: random.pick(&[400, 1000, 2000, 4000, 4000]),
            scenarios: random.pick(&[4, 12, 30, 65_536, 65_536, 65_536]),
        };
        tally.tables += 1;
        let gap = random.percent(40).then(|| random.between(100, 3000));
        for row in 0..rows.len() {
            set_claim_under(gap, &mut random, &lengths, &mut rows, row, limits);
            compare(gap, &lengths, &rows, row, limits, &mut tally);
        }
        compare_readers(&lengths_file(&mut random, lengths), &mut tally);
        compare_checks(&mut random, rows, &mut tally);
    }
    tally.print();
    let logs = log_self_check::self_check(seed, 2 * count);
    logs.print();
    tally.differences + logs.differences == 0
}

fn small_table(random: &mut Random, lengths: &LengthTable) -> Vec<Row> {
    let groups = random.between(1, 3);
    let besides = random.pick(&[0, 0, 150, 200]);
    match random.below(11) {
        0..=3 => clustered(random, lengths, groups.max(2), 5, (110, 500)),
        4 => clustered(random, lengths, groups.max(2), 4, (88, 100)),
        5..=7 => dense(random, lengths, 4),
        8 => stretched(random, groups, 6, 250),
        10 => carts(random, lengths, groups + 1, (1, 1), besides),
        _ => stretched(random, groups, 9, 1),
    }
}

fn cheap(lengths: &LengthTable, rows: &[Row]) -> bool {
    let count = |row| View::new(lengths, rows, row).scenario_count();
    table::check(&rows.concat()).is_ok() && (0..rows.len()).all(|row| count(row) <= MOST_SCENARIOS)
}

fn compare(
    gap: Option<u64>,
    lengths: &LengthTable,
    rows: &[Row],
    row: usize,
    limits: Limits,
    tally: &mut Tally,
) {
    let view = View::under(gap, lengths, rows, row);
    let rough = view.rough(limits.window);
    let exact = view.exact(limits.window);
    let fast = (rough.map(|w| w.response), exact.map(|w| w.response));
    let pruned = rough.and_then(|_| view.exact_pruned(limits.window));
    let judgement = judge_view(Search::Pruned, &view, limits);
    let slow = literal::answer(gap, lengths, rows, row, limits);
    let [plain, quick] = [Search::Plain, Search::Pruned].map(|s| explain_view(s, &view, limits));
    let same = fast == (slow.rough, slow.exact)
        && (rough.is_none() || pruned == slow.exact)
        && view.scenario_count() == slow.scenarios
        && judgement == slow.judgement
        && (plain.judgement, &plain.case) == (judgement, &slow.case)
        && quick == plain
        && (rough.is_none() || levels_fall(&view, limits.window, fast));
    tally.rows += 1;
    tally.groups[0] += u64::from(rows.iter().all(|row| row[NODE] == row[GROUP]));
    tally.groups[1] += u64::from(has_several_nodes(rows));
    tally.late += u64::from(rows.iter().any(|row| row[OFFSET] >= row[PERIOD]));
    if !same {
        tally.differences += 1;
        eprintln!("row {row} differs in {rows:?} with lengths {lengths:?} and gap {gap:?}");
    }
    tally.verdicts[judgement.verdict as usize] += 1;
    tally.faults[judgement.verdict as usize] += u64::from(gap.is_some());
    if let Some(case) = slow.case {
        tally.cases[usize::from(case.q > 1)] += 1;
    }
    tally.apart += u64::from(fast.0 != fast.1);
    tally.later_queueings += u64::from(exact.is_some_and(|worst| worst.q > 1));
    tally.rough_only_without_window += u64::from(rough.is_none() && exact.is_some());
}

/// From the rough bound to the exact one no level's bound exceeds the one above it, by both searches.
fn levels_fall(view: &View, limit: u64, (rough, exact): (Option<u64>, Option<u64>)) -> bool {
    let bound = |search, depth| view.level(search, depth, limit);
    let levels: Vec<Option<u64>> = (1..=16).map(|depth| bound(Search::Plain, depth)).collect();
    let pruned = (1..=16).map(|depth| bound(Search::Pruned, depth));
    levels[0] == rough
        && levels[15] == exact
        && levels.windows(2).all(|pair| pair[1] <= pair[0])
        && pruned.eq(levels.iter().copied())
}

fn has_several_nodes(rows: &[Row]) -> bool {
    let beside = |row: &Row| rows.iter().any(|o| o[GROUP] == row[GROUP] && o[NODE] != row[NODE]);
    rows.iter().any(beside)
}

/// Damages a table in up to five places, as rows and as a file.
fn compare_checks(random: &mut Random, mut rows: Vec<Row>, tally: &mut Tally) {
    for _ in 0..random.below(4) {
        damage_row(random, &mut rows);
    }
    let mut words = rows.concat();
    let mut file = table::file_of(&rows);
    let places = random.below(3);
    damage_words(random, &mut words, places);
    damage_file(random, &mut file, places);
    if random.percent(5) {
        words.truncate(random.below(words.len() as u64 + 1) as usize);
        file.truncate(random.below(file.len() as u64 + 1) as usize);
    }
    for (found, listed) in [
        (table::check(&words).err(), refusal(&faults_of_words(&words))),
        (table::parse(&file).err(), refusal(&faults_of_file(&file))),
    ] {
        tally.refusals[found.map_or(0, |Refusal { number, .. }| number as usize)] += 1;
        if found != listed {
            tally.differences += 1;
            eprintln!("the checks find {found:?}, the list {listed:?} in {rows:?}");
        }
    }
}

/// Another node, group, frame or period, mostly one that stands in the table; on the middle line, so
/// that several faults meet, or on any.
fn damage_row(random: &mut Random, rows: &mut [Row]) {
    let other = random.pick(rows);
    let (any, middle) = (random.below(rows.len() as u64) as usize, rows.len() / 2);
    let row = &mut rows[if random.percent(30) { any } else { middle }];
    match random.below(7) {
        0 => row[NODE] = other[NODE],
        1 => row[GROUP] = random.between(0, 17) as u32,
        2 => row[IDENTIFIER..PAYLOAD].copy_from_slice(&other[IDENTIFIER..PAYLOAD]),
        3 => row[PERIOD] = random.pick(&[1, 999, 1000, 1001, 1_000_000]),
        4 => row[..2].copy_from_slice(&other[..2]),
        5 => (row[NODE], row[GROUP]) = (other[NODE], other[GROUP] % GROUPS + 1),
        _ => row[random.below(FIELDS as u64) as usize] = random.pick(&[0, 1, 16, 17, 1_000_001]),
    }
}

/// A file of these lengths, mostly with a value or some bytes changed, or a byte less or more.
fn lengths_file(random: &mut Random, mut lengths: LengthTable) -> Vec<u8> {
    if random.percent(40) {
        let line = random.below(2) as usize;
        lengths[line][random.below(9) as usize] = random.pick(&[0, 46, 47, 80, 90, 400, 401]);
    }
    let mut file = lengths::file_of(&lengths);
    if random.percent(50) {
        let at = random.below(file.len() as u64) as usize;
        file[at] = random.pick(b"  0123456789\n\r\t+-x");
    }
    match random.below(20) {
        0 => file.push(b'\n'),
        1 => file.truncate(91),
        _ => (),
    }
    file
}

fn compare_readers(file: &[u8], tally: &mut Tally) {
    let read = lengths::parse(file);
    tally.files[match read {
        Ok(_) => 0,
        Err(refusal) if refusal.number == 13 => 1,
        Err(_) => 2,
    }] += 1;
    if read != literal::loaded(file) {
        tally.differences += 1;
        eprintln!("the readers differ on {:?}", String::from_utf8_lossy(file));
    }
}

impl Tally {
    fn print(&self) {
        for verdict in [1, 2, 3, 4, 11, 12] {
            let faults = self.faults[verdict];
            eprintln!("verdict {verdict:>2}: {}, with faults {faults}", self.verdicts[verdict]);
        }
        eprintln!("rough and exact bound differ: {}", self.apart);
        eprintln!("exact bound by a later q only: {}", self.later_queueings);
        eprintln!("only the rough bound has no window: {}", self.rough_only_without_window);
        let [first, later] = self.cases;
        eprintln!("cases at the first instance: {first}, at a later one: {later}");
        let [good, notation, limits] = self.files;
        eprintln!("files of lengths: {good} good, {notation} with 13, {limits} with 14");
        let [alike, several] = self.groups;
        eprintln!("rows with groups as nodes: {alike}, with a group of several nodes: {several}");
        eprintln!("rows of tables with late frames: {}", self.late);
        eprintln!("tables refused by number, accepted at 0: {:?}", self.refusals);
        let Tally { tables, rows, .. } = self;
        println!("{tables} tables, {rows} rows, {} differences", self.differences);
    }
}
