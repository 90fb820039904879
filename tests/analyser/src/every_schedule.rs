//! Every schedule of tiny tables, with faults and without: no frame takes longer than its exact bound.
//! Lengths are a few ticks, fewer than a table may have; the rules do not depend on them.

use crate::bounds::{rank, View};
use crate::faults::SIGNALLING;
use crate::lengths::{length, LengthTable};
use crate::random::Random;
use crate::table::{self, Row, GROUP, GROUPS, OFFSET, PERIOD};
use std::collections::HashSet;

const LENGTHS: LengthTable = [[1, 2, 3, 4, 5, 6, 7, 8, 9]; 2];
/// A table is given up where there are more states.
const MOST_STATES: usize = 3_000_000;
/// Starts, and ticks of a gap, of a table: so many pairs at the most.
const MOST_BEGINNINGS: u64 = 1_000_000;
/// The longest window looked for.
const LONGEST: u64 = 1000;

/// What a free bus finds: of each row the ticks until its oldest instance that is not sent is queued, not
/// above 0 if it waits, and the ticks in which no fault may begin yet.
#[derive(Clone, PartialEq, Eq, Hash)]
struct State {
    until: Vec<i32>,
    quiet: i32,
}

impl State {
    fn later(&self, ticks: i32) -> State {
        let until = self.until.iter().map(|until| until - ticks).collect();
        State { until, quiet: (self.quiet - ticks).max(0) }
    }

    /// The state when something is queued.
    fn queued(self) -> State {
        let idle = *self.until.iter().min().expect("a row");
        self.later(idle.max(0))
    }
}

/// The states that are reached, those still to be left, and the greatest response of each row.
struct Search<'a> {
    rows: &'a [Row],
    gap: Option<u64>,
    seen: HashSet<State>,
    open: Vec<State>,
    greatest: Vec<u64>,
}

impl Search<'_> {
    fn reach(&mut self, state: State) {
        let state = state.queued();
        if self.seen.insert(state.clone()) {
            self.open.push(state);
        }
    }

    /// From nothing sent, with all starts below the groups' hyperperiods.
    fn begin(&mut self, group: u32, starts: &mut Vec<u64>) {
        if group > GROUPS {
            let release = |row: &Row| starts[row[GROUP] as usize - 1] as i32 + row[OFFSET] as i32;
            let until = self.rows.iter().map(release).collect();
            self.reach(State { until, quiet: 0 });
            return;
        }
        for start in 0..table::group_hyperperiod(self.rows, group) {
            starts.push(start);
            self.begin(group + 1, starts);
            starts.pop();
        }
    }

    /// The best-ranked queued frame starts: it takes any length, or is cut in any tick where a fault may begin.
    fn leave(&mut self, state: &State) {
        let queued = (0..self.rows.len()).filter(|row| state.until[*row] <= 0);
        let row = queued.min_by_key(|row| rank(&self.rows[*row])).expect("something is queued");
        let longest = length(&LENGTHS, &self.rows[row]) as i32;
        for ticks in 1..=longest {
            let response = (ticks - state.until[row]) as u64;
            self.greatest[row] = self.greatest[row].max(response);
            let mut sent = state.later(ticks);
            sent.until[row] += self.rows[row][PERIOD] as i32;
            self.reach(sent);
        }
        let Some(gap) = self.gap else {
            return;
        };
        for fault in state.quiet..longest {
            let free = fault + 1 + SIGNALLING as i32;
            let quiet = (fault + gap as i32 - free).max(0);
            self.reach(State { quiet, ..state.later(free) });
        }
    }
}

/// The greatest response of each row in any schedule; none if there are too many states.
fn greatest_responses(rows: &[Row], gap: Option<u64>) -> Option<Vec<u64>> {
    let (seen, open) = (HashSet::new(), Vec::new());
    let mut search = Search { rows, gap, seen, open, greatest: vec![0; rows.len()] };
    search.begin(1, &mut Vec::new());
    while let Some(state) = search.open.pop() {
        if search.seen.len() > MOST_STATES {
            return None;
        }
        search.leave(&state);
    }
    Some(search.greatest)
}

/// A table of one to four frames whose groups and gaps do not come to too much.
fn tiny_table(random: &mut Random) -> (Vec<Row>, u64) {
    loop {
        let groups = random.between(1, 3);
        let bases: Vec<u64> = (0..groups).map(|_| random.between(8, 150)).collect();
        let frames = random.between(groups, 4);
        let most = random.pick(&[60, 200]);
        let gap = random.between(33, most);
        let frame = |number: u64| {
            let group = number % groups;
            let period = bases[group as usize] * random.pick(&[1, 1, 2]);
            let (payload, offset) = (random.below(9) as u32, random.below(period) as u32);
            let group = group as u32 + 1;
            [group, group, random.below(2048) as u32, 11, payload, period as u32, offset, 1]
        };
        let rows: Vec<Row> = (0..frames).map(frame).collect();
        let hyperperiods = (1..=GROUPS).map(|group| table::group_hyperperiod(&rows, group));
        let beginnings = hyperperiods.product::<u64>() * gap;
        if table::check(&rows.concat()).is_ok() && beginnings <= MOST_BEGINNINGS {
            return (rows, gap);
        }
    }
}

/// The exact bounds of all rows, if all have one.
fn bounds(rows: &[Row], gap: Option<u64>) -> Option<Vec<u64>> {
    let bound = |row| {
        let view = View::under(gap, &LENGTHS, rows, row);
        view.rough(LONGEST)?;
        view.exact_pruned(LONGEST)
    };
    (0..rows.len()).map(bound).collect()
}

/// Bounds of last frames: those that count one fault, where the frame itself is the longest and where not,
/// and those that count several; of other frames; and without faults.
const KINDS: [&str; 6] = [
    "last frames, the longest, one fault counted",
    "last frames, not the longest, one fault counted",
    "last frames, several faults counted",
    "other frames with faults",
    "last frames without faults",
    "other frames without faults",
];
/// The kinds whose bounds must be met: a fault in the last tick of the last frame costs it all that the
/// bound counts if no other frame is longer.
const MET: [usize; 2] = [0, 4];

/// How often bounds are met to the tick, and by how many ticks they are missed at the most and together.
#[derive(Default)]
struct Tally {
    bounds: u64,
    met: u64,
    most: u64,
    missed: u64,
    exceeded: u64,
}

impl Tally {
    fn add(&mut self, bound: u64, greatest: u64) {
        let missing = bound.saturating_sub(greatest);
        self.bounds += 1;
        self.met += u64::from(bound == greatest);
        self.exceeded += u64::from(bound < greatest);
        self.most = self.most.max(missing);
        self.missed += missing;
    }

    fn print(&self, kind: &str) {
        let Tally { bounds, met, most, missed, exceeded } = self;
        println!(
            "{kind}: {bounds} bounds, {met} met to the tick, {exceeded} exceeded, missed by {most} ticks at most, {missed} together"
        );
    }
}

/// Which kind a bound is of.
fn kind(rows: &[Row], row: usize, gap: Option<u64>, several: bool) -> usize {
    let is_last = rows.iter().all(|other| rank(other) <= rank(&rows[row]));
    let is_longest =
        rows.iter().all(|other| length(&LENGTHS, other) <= length(&LENGTHS, &rows[row]));
    match (gap, is_last) {
        (Some(_), true) if several => 2,
        (Some(_), true) => usize::from(!is_longest),
        (Some(_), false) => 3,
        (None, true) => 4,
        (None, false) => 5,
    }
}

/// Adds the rows of a table under a gap; false if there are too many states.
fn add(rows: &[Row], gap: Option<u64>, tallies: &mut [Tally]) -> bool {
    let Some(greatest) = greatest_responses(rows, gap) else {
        return false;
    };
    let bounds_under = |gap| bounds(rows, gap).expect("the gap leaves windows");
    let one_fault = bounds_under(gap.map(|_| LONGEST));
    for (row, (bound, greatest)) in bounds_under(gap).into_iter().zip(greatest).enumerate() {
        tallies[kind(rows, row, gap, bound > one_fault[row])].add(bound, greatest);
    }
    true
}

/// Looks at so many tiny tables; true if no bound is exceeded, and those are met that must be.
pub fn every_schedule(seed: u64, count: u64) -> bool {
    let mut random = Random::new(seed);
    let mut tallies: [Tally; KINDS.len()] = Default::default();
    let (mut tables, mut given_up) = (0, 0);
    while tables < count {
        let (rows, gap) = tiny_table(&mut random);
        if bounds(&rows, Some(gap)).is_some() {
            tables += 1;
            let added = [Some(gap), None].map(|gap| add(&rows, gap, &mut tallies));
            given_up += added.iter().filter(|added| !**added).count();
        }
    }
    KINDS.iter().zip(&tallies).for_each(|(kind, tally)| tally.print(kind));
    println!("{tables} tiny tables with faults and without, {given_up} searches given up");
    let all_met = MET.iter().all(|kind| tallies[*kind].met == tallies[*kind].bounds);
    tallies.iter().all(|tally| tally.exceeded == 0) && all_met
}
