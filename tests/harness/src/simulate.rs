//! Simulated buses: certified frames meet their claims, and the lowest frame's bound is reached.

use crate::answer::Judged;
use crate::bench::input_of;
use crate::inputs::generator;
use crate::lent::Lent;
use crate::library;
use crate::starts::{starts, starts_to_meet, worst_scenario, worst_starts};
use crate::tables::{self, claim_all, lowest, Drawn};
use analyser::lengths::{length, LengthTable, STANDARD};
use analyser::literal_bus;
use analyser::random::Random;
use analyser::simulator::{release, schedule, Starts, Transmission};
use analyser::table::{Row, CLAIM, GROUP, NODE, OFFSET, PERIOD};

/// Schedules of each table.
const SCHEDULES: u64 = 4;
/// Releases of a schedule after the last group has started, about.
const RELEASES: u64 = 3000;
/// Ticks of a schedule that is also followed tick by tick.
const TICKS: u64 = 4000;
/// With so many tables everything that is counted must occur.
const ENOUGH: u64 = 100;

#[derive(Default)]
struct Tally {
    tables: u64,
    /// Tables by other lengths than document 01's, and the frames certified by them.
    own: [u64; 2],
    /// Tables in which nodes start together, and the frames certified in them.
    together: [u64; 2],
    /// Late frames that are certified, and their instances.
    late_frames: [u64; 2],
    /// Frames certified by the rough bound, by the exact one, and by a level's.
    certified: [u64; 3],
    schedules: u64,
    instances: u64,
    late: u64,
    just_in_time: u64,
    bounds: u64,
    missed: u64,
    ticked: u64,
    unequal: u64,
}

/// Simulates buses of so many tables; true if all is as it must be.
pub fn simulate(seed: u64, count: u64) -> bool {
    println!("seed {seed}");
    let mut tally = Tally::default();
    while tally.tables < count {
        let mut random = generator(seed, tally.tables);
        let mut drawn = tables::draw(&mut random);
        claim_all(&mut random, &drawn.lengths, &mut drawn.rows);
        let failures = tally.failures();
        tally.simulate_table(&mut random, &drawn);
        if failures == 0 && tally.failures() > 0 {
            println!("seed {seed}, table {} is the first to fail:", tally.tables);
            let input = input_of(&drawn.lengths, &drawn.rows);
            print!("{}", String::from_utf8_lossy(&input));
        }
        tally.tables += 1;
    }
    tally.print();
    tally.failures() == 0 && (tally.is_complete() || count < ENOUGH)
}

impl Tally {
    fn simulate_table(&mut self, random: &mut Random, drawn: &Drawn) {
        let by_verdict = certified_rows(random, drawn);
        for (count, rows) in self.certified.iter_mut().zip(&by_verdict) {
            *count += rows.len() as u64;
        }
        let certified = by_verdict.concat();
        if drawn.lengths != STANDARD {
            self.own[0] += 1;
            self.own[1] += certified.len() as u64;
        }
        if is_together(&drawn.rows) {
            self.together[0] += 1;
            self.together[1] += certified.len() as u64;
        }
        let late = certified.iter().filter(|row| is_late(&drawn.rows[**row]));
        self.late_frames[0] += late.count() as u64;
        for _ in 0..SCHEDULES {
            let worst = worst_starts(random, drawn, &certified);
            let starts = worst.unwrap_or_else(|| starts(random, &drawn.rows));
            self.check_claims(random, drawn, &starts, &certified);
        }
        if self.tables % 4 == 0 {
            self.follow_ticks(random, drawn);
        }
        if let Some(reached) = reaches_bound(random, drawn) {
            self.bounds += 1;
            self.missed += u64::from(!reached);
        }
    }

    /// Instances queued at t with t + claim up to the end are sent by t + claim.
    fn check_claims(
        &mut self,
        random: &mut Random,
        drawn: &Drawn,
        starts: &Starts,
        certified: &[usize],
    ) {
        let rows = &drawn.rows;
        let until = until(rows, starts);
        let manner = random.below(3);
        let mut lengths = |row: &Row| draw_length(random, manner, &drawn.lengths, row);
        let list = schedule(rows, starts, until, &mut lengths);
        let ends = ends(rows, &list);
        for row in certified {
            let latest = |n: u64| release(&rows[*row], starts, n) + u64::from(rows[*row][CLAIM]);
            for instance in (0..).take_while(|n| latest(*n) <= until) {
                let end = ends[*row].get(instance as usize);
                let spare = end.and_then(|end| latest(instance).checked_sub(*end));
                if spare.is_none() && self.late == 0 {
                    println!("row {row}, instance {instance} is late with starts {starts:?}");
                }
                self.instances += 1;
                self.late_frames[1] += u64::from(is_late(&rows[*row]));
                self.late += u64::from(spare.is_none());
                self.just_in_time += u64::from(spare == Some(0));
            }
        }
        self.schedules += 1;
    }

    /// Both simulators give the same schedule for the same lengths.
    fn follow_ticks(&mut self, random: &mut Random, drawn: &Drawn) {
        let rows = &drawn.rows;
        let starts: Starts = std::array::from_fn(|_| random.below(TICKS / 8));
        let manner = random.below(3);
        let mut again = random.clone();
        let mut lengths = |row: &Row| draw_length(random, manner, &drawn.lengths, row);
        let list = schedule(rows, &starts, TICKS, &mut lengths);
        let mut lengths = |row: &Row| draw_length(&mut again, manner, &drawn.lengths, row);
        let ticked = literal_bus::schedule(rows, &starts, TICKS, &mut lengths);
        self.ticked += 1;
        self.unequal += u64::from(list != ticked);
    }

    fn failures(&self) -> u64 {
        self.late + self.missed + self.unequal
    }

    /// Whether everything that is counted has occurred.
    fn is_complete(&self) -> bool {
        let [rough, exact, level] = self.certified;
        let [own, own_certified] = self.own;
        let lengths = ![self.tables - own, own, own_certified].contains(&0);
        let [together, certified] = self.together;
        let groups = ![self.tables - together, together, certified].contains(&0);
        lengths
            && groups
            && !self.late_frames.contains(&0)
            && ![rough, exact, level, self.instances, self.just_in_time, self.bounds, self.ticked]
                .contains(&0)
    }

    fn print(&self) {
        let Tally { tables, schedules, instances, late, .. } = self;
        let [rough, exact, level] = self.certified;
        println!(
            "{rough} frames certified by the rough bound, {exact} by the exact one, {level} by a level's"
        );
        let [own, own_certified] = self.own;
        println!("{own} tables by own lengths, {own_certified} frames certified by them");
        let [together, certified] = self.together;
        println!("{together} tables with nodes that start together, {certified} frames certified in them");
        let [begun_late, sent] = self.late_frames;
        println!("{begun_late} certified frames begin late, with {sent} instances");
        println!("{} instances end at their claim", self.just_in_time);
        let met = self.bounds - self.missed;
        println!("{} bounds of lowest-priority frames, {met} met to the tick", self.bounds);
        println!("{} schedules also tick by tick, {} differ", self.ticked, self.unequal);
        println!("{tables} tables, {schedules} schedules, {instances} instances, {late} late");
    }
}

/// The rows that the library certifies with verdict 1, with 2 and with 4, of those not too much work.
fn certified_rows(random: &mut Random, drawn: &Drawn) -> [Vec<usize>; 3] {
    let mut lengths = Lent::new(random, &drawn.lengths.concat());
    let mut words = Lent::new(random, &drawn.rows.concat());
    let mut by_verdict = [Vec::new(), Vec::new(), Vec::new()];
    for row in (0..drawn.rows.len()).filter(|row| drawn.is_cheap(*row)) {
        match Judged::new(library::judge_rows(&mut lengths, &mut words, row as u64)).verdict {
            1 => by_verdict[0].push(row),
            2 => by_verdict[1].push(row),
            4 => by_verdict[2].push(row),
            _ => (),
        }
    }
    by_verdict
}

/// Whether a frame is queued first after a period or more.
fn is_late(row: &Row) -> bool {
    row[OFFSET] >= row[PERIOD]
}

/// Whether some group has several nodes.
pub fn is_together(rows: &[Row]) -> bool {
    let beside = |row: &Row| rows.iter().any(|o| o[GROUP] == row[GROUP] && o[NODE] != row[NODE]);
    rows.iter().any(beside)
}

/// The ends of each row's instances, from number 0 on.
fn ends(rows: &[Row], list: &[Transmission]) -> Vec<Vec<u64>> {
    let mut ends = vec![Vec::new(); rows.len()];
    list.iter().for_each(|sent| ends[sent.row].push(sent.end()));
    ends
}

/// A tick with enough releases between it and the last beginning of a frame, and not too many.
pub fn until(rows: &[Row], starts: &Starts) -> u64 {
    let rate: u64 = rows.iter().map(|row| 1_000_000 / u64::from(row[PERIOD])).sum();
    let latest = starts.iter().max().expect("a group");
    let begun = rows.iter().map(|row| release(row, starts, 0)).max().expect("a row");
    begun.max(*latest) + (RELEASES * 1_000_000 / rate).min(2_000_000)
}

/// Always the largest, anything, or mostly the largest.
pub fn draw_length(random: &mut Random, manner: u64, lengths: &LengthTable, row: &Row) -> u64 {
    let largest = length(lengths, row);
    match manner {
        0 => largest,
        1 => random.between(1, largest),
        _ if random.percent(90) => largest,
        _ => random.between(1, largest),
    }
}

/// Whether the lowest-priority frame takes its precise bound to the tick, when the releases of the
/// worst scenario meet and all lengths are largest; none if there is no such scenario.
fn reaches_bound(random: &mut Random, drawn: &Drawn) -> Option<bool> {
    let row = lowest(&drawn.rows);
    let (worst, instants) = worst_scenario(None, drawn, row)?;
    let mut lengths = Lent::new(random, &drawn.lengths.concat());
    let mut words = Lent::new(random, &drawn.rows.concat());
    let bound = library::precise_bound_rows(&mut lengths, &mut words, row as u64);
    let bound = u64::try_from(bound).unwrap_or(0);
    Some(response(drawn, row, &instants, worst.q, bound) == Some(bound))
}

/// The response of the q-th instance from the tick where the instants meet, if it starts in time.
fn response(drawn: &Drawn, row: usize, instants: &[u64], q: u64, bound: u64) -> Option<u64> {
    let rows = &drawn.rows;
    let starts = starts_to_meet(instants);
    let meeting = starts[0] + instants[0];
    let queued = |n: &u64| release(&rows[row], &starts, *n) >= meeting;
    let instance = (0..).find(queued).expect("a later release") + q - 1;
    let queueing = release(&rows[row], &starts, instance);
    let mut largest = |row: &Row| length(&drawn.lengths, row);
    let list = schedule(rows, &starts, queueing + bound, &mut largest);
    let sent = list.iter().find(|sent| sent.row == row && sent.instance == instance);
    sent.map(|sent| sent.end() - queueing)
}
