//! The library's algorithm written for speed, under the library's rule that no list holds more than
//! one of a group's alignments: the benchmark's yardstick.

use crate::yardstick_groups::{work, Frame, Group, Placed};
use analyser::bounds::rank;
use analyser::judgement::{Judgement, Verdict, LIMITS};
use analyser::lengths::{length, LengthTable};
use analyser::listing::judgement_columns;
use analyser::table::{self, Row, CLAIM, GROUP, GROUPS, IDENTIFIER};
use std::collections::HashSet;

/// A line for each of accepted rows.
pub fn list(lengths: &LengthTable, rows: &[Row]) -> String {
    let line = |(row, words): (usize, &Row)| {
        let judgement = View::new(lengths, rows, row).judge(words[CLAIM].into());
        format!("{:>10}{}\n", words[IDENTIFIER], judgement_columns(judgement))
    };
    rows.iter().enumerate().map(line).collect()
}

/// How many greatest works a listing looks for, and how many of them at a length that was looked
/// at before for the same row and group.
pub fn count_looks(lengths: &LengthTable, rows: &[Row]) -> (usize, usize) {
    let (mut all, mut distinct) = (0, 0);
    for (row, words) in rows.iter().enumerate() {
        let mut view = View::new(lengths, rows, row);
        view.groups.iter_mut().for_each(Group::watch);
        view.judge(words[CLAIM].into());
        for looks in view.groups.into_iter().map(Group::looks) {
            all += looks.len();
            distinct += looks.into_iter().collect::<HashSet<_>>().len();
        }
    }
    (all, all - distinct)
}

/// The judged frame, then the other frames of groups at one alignment; and groups at any.
#[derive(Clone, Copy)]
struct Scenario<'a> {
    fixed: &'a [Placed],
    open: &'a [&'a Group],
}

/// A search for the least x that holds its load: the window, or the start behind so much work
/// besides that of the better frames.
#[derive(Clone, Copy)]
enum Search {
    Window(u64),
    Start(u64),
}

impl Search {
    fn ticks(self, x: u64) -> u64 {
        match self {
            Search::Window(_) => x,
            Search::Start(_) => x + 1,
        }
    }

    fn load(self, fixed: &[Placed], x: u64) -> u64 {
        match self {
            Search::Window(base) => base + work(fixed, x),
            Search::Start(base) => base + work(&fixed[1..], x + 1),
        }
    }

    /// The load with the open groups at their greatest work.
    fn full_load(self, scenario: Scenario, x: u64) -> u64 {
        let ticks = self.ticks(x);
        let greatest = scenario.open.iter().map(|group| group.greatest(ticks));
        self.load(scenario.fixed, x) + greatest.sum::<u64>()
    }

    /// The load with the open groups' frames all queued at once.
    fn load_above(self, scenario: Scenario, x: u64) -> u64 {
        let ticks = self.ticks(x);
        let above = scenario.open.iter().map(|group| group.above(ticks));
        self.load(scenario.fixed, x) + above.sum::<u64>()
    }

    /// The least x from a number on and up to the end, with all groups fixed.
    fn climb(self, fixed: &[Placed], mut x: u64, end: u64) -> Option<u64> {
        while x <= end {
            let load = self.load(fixed, x);
            if load <= x {
                return Some(x);
            }
            x = load;
        }
        None
    }

    /// The least x from a number on and up to the end. Open groups stand at their guesses, which gives
    /// no more than the full load, so that no climb passes that x; the next climb starts from the
    /// full load.
    fn settle(self, scenario: Scenario, mut x: u64, end: u64) -> Option<u64> {
        if scenario.open.is_empty() {
            return self.climb(scenario.fixed, x, end);
        }
        let mut fixed = scenario.fixed.to_vec();
        loop {
            fixed.truncate(scenario.fixed.len());
            scenario.open.iter().for_each(|group| group.place(group.guess(), &mut fixed));
            let reached = self.climb(&fixed, x, end)?;
            x = self.full_load(scenario, reached);
            if x <= reached {
                return Some(reached);
            }
        }
    }
}

/// So many steps climbs a look by the bounds of loads.
const STEPS: usize = 16;

/// So many instances that no start is found for does a sweep pass before it gives up.
const PATIENCE: usize = 256;

/// The bus as the frame of one row meets it.
struct View {
    blocking: u64,
    scenarios: u64,
    /// How many groups of the list below the deepest level fixes besides the own one.
    fixed: usize,
    /// The frame's own group, which has the frame first, and the others with several alignments.
    groups: Vec<Group>,
    /// The frames of other groups with one alignment.
    lone: Vec<Placed>,
}

impl View {
    fn new(lengths: &LengthTable, rows: &[Row], row: usize) -> View {
        let frame = &rows[row];
        let below = rows.iter().filter(|other| rank(other) > rank(frame));
        let blocking = below.map(|row| length(lengths, row) - 1).max().unwrap_or(0);
        let others = (1..=GROUPS).filter(|group| *group != frame[GROUP]);
        let (groups, lone) = (Vec::new(), Vec::new());
        let mut view = View { blocking, scenarios: 1, fixed: 0, groups, lone };
        for group in [frame[GROUP]].into_iter().chain(others) {
            let of_group = rows.iter().filter(|row| row[GROUP] == group);
            let mut ahead: Vec<&Row> = of_group.filter(|row| rank(row) <= rank(frame)).collect();
            ahead.sort_by_key(|row| rank(row) != rank(frame));
            if !ahead.is_empty() {
                let frames = ahead.into_iter().map(|row| Frame::new(lengths, row)).collect();
                view.add(Group::new(frames), table::group_hyperperiod(rows, group));
            }
        }
        view
    }

    fn add(&mut self, group: Group, hyperperiod: u64) {
        let count = group.alignments().count() as u64;
        let all = count * (hyperperiod / group.turn());
        self.scenarios = self.scenarios.saturating_mul(all);
        if self.groups.is_empty() || count > 1 {
            self.fixed +=
                usize::from(!self.groups.is_empty() && self.scenarios <= LIMITS.scenarios);
            self.groups.push(group);
        } else {
            group.place(group.guess(), &mut self.lone);
        }
    }

    fn judge(&self, claim: u64) -> Judgement {
        let limit = self.limit();
        let Some(rough) = self.approximate(limit) else {
            return Judgement { verdict: Verdict::NoWindow, bound: 0, margin: 0 };
        };
        let (verdict, bound) = if rough <= claim {
            (Verdict::CertifiedRough, rough)
        } else {
            let bound = self.precise(limit).expect("the rough bound has a window");
            match (self.scenarios > LIMITS.scenarios, bound <= claim) {
                (true, true) => (Verdict::CertifiedLevel, bound),
                (true, false) => (Verdict::Undecided, rough),
                (false, true) => (Verdict::CertifiedExact, bound),
                (false, false) => (Verdict::TooSmall, bound),
            }
        };
        Judgement { verdict, bound, margin: claim as i64 - bound as i64 }
    }

    fn window(&self) -> Search {
        Search::Window(self.blocking)
    }

    /// The window of a scenario, if it has one.
    fn settled_window(&self, scenario: Scenario) -> Option<u64> {
        self.window().settle(scenario, 1, LIMITS.window)
    }

    /// The frames of the own group from an alignment, and those that have one alignment.
    fn placed(&self, own: u64) -> Vec<Placed> {
        let mut placed = Vec::new();
        self.groups[0].place(own, &mut placed);
        placed.extend_from_slice(&self.lone);
        placed
    }

    /// The window with all groups open, which no other is longer than.
    fn limit(&self) -> Option<u64> {
        let groups: Vec<&Group> = self.groups.iter().collect();
        self.settled_window(Scenario { fixed: &self.lone, open: &groups })
    }

    /// The rough bound, or none if an alignment of the own group has no window. Without a limit for all
    /// of these each has its own.
    fn approximate(&self, limit: Option<u64>) -> Option<u64> {
        let open: Vec<&Group> = self.groups[1..].iter().collect();
        let mut best = 0;
        for own in self.groups[0].own_alignments() {
            let scenario = Scenario { fixed: &self.placed(own), open: &open };
            let limit = limit.or_else(|| self.settled_window(scenario))?;
            if self.sweep(scenario, released(scenario, limit), best, 0) > 0 {
                best = self.raised(scenario, best)?;
            }
        }
        Some(best)
    }

    /// The bound of the deepest level, which is the exact one where all groups are fixed; where the rough
    /// one is found.
    fn precise(&self, limit: Option<u64>) -> Option<u64> {
        let open: Vec<&Group> = self.groups[1..].iter().collect();
        let mut best = 0;
        for own in self.groups[0].own_alignments() {
            let mut fixed = self.placed(own);
            let scenario = Scenario { fixed: &fixed, open: &open };
            let reach = released(scenario, limit.or_else(|| self.settled_window(scenario))?);
            best = self.improved(&mut fixed, &open, reach, best)?;
        }
        Some(best)
    }

    /// The greater of the best and the responses with the open groups fixed one after the other as far as
    /// the level goes, unless nothing below can exceed the best: that is asked anew where the best has
    /// risen. From `reach` on the instances are shown not to exceed it, also where more groups are fixed.
    fn improved(
        &self,
        fixed: &mut Vec<Placed>,
        open: &[&Group],
        mut reach: u64,
        mut best: u64,
    ) -> Option<u64> {
        let level_ends = self.groups.len() - 1 - open.len() == self.fixed;
        let Some((group, rest)) = open.split_first().filter(|_| !level_ends) else {
            let scenario = Scenario { fixed, open };
            let within = self.sweep(scenario, reach, best, 0) == 0;
            return if within { Some(best) } else { self.raised(scenario, best) };
        };
        let mut asked = None;
        let kept = fixed.len();
        for alignment in group.alignments() {
            if asked != Some(best) {
                reach = self.sweep(Scenario { fixed, open }, reach, best, PATIENCE);
                if reach == 0 {
                    return Some(best);
                }
                asked = Some(best);
            }
            group.place(alignment, fixed);
            best = self.improved(fixed, rest, reach, best)?;
            fixed.truncate(kept);
        }
        Some(best)
    }

    /// One more than the last instance before `reach` for which no start is found that shows a
    /// response up to the best, or 0; `reach` itself, where more than `patience` of them are met.
    fn sweep(&self, scenario: Scenario, reach: u64, best: u64, patience: usize) -> u64 {
        let (mut instance, mut from, mut last, mut missed) = (0, 0, 0, 0);
        while instance < reach {
            if let Some((served, next)) = self.serve(scenario, instance, from, best) {
                (instance, from) = (instance + served, next);
                continue;
            }
            if missed >= patience {
                return reach;
            }
            missed += 1;
            instance += 1;
            last = instance;
        }
        last
    }

    /// A start that shows a response up to the best: how many instances it serves from this one
    /// on, and from where the next start is looked for.
    fn serve(&self, scenario: Scenario, instance: u64, from: u64, best: u64) -> Option<(u64, u64)> {
        let Placed { frame, distance } = scenario.fixed[0];
        let start = Search::Start(self.blocking + instance * frame.length);
        let queued = distance + instance * frame.period;
        let latest = (best + queued).checked_sub(frame.length)?.min(LIMITS.window - 1);
        let (x, load) = found_start(start, scenario, from, latest)?;
        Some((1 + (x - load) / frame.length, if x < latest { x } else { from }))
    }

    /// The greater of the best and the scenario's responses, or none if it has no window. Instances
    /// that do not exceed the best are passed over.
    fn raised(&self, scenario: Scenario, mut best: u64) -> Option<u64> {
        let Placed { frame, distance } = scenario.fixed[0];
        let releases = frame.count(distance, self.settled_window(scenario)?);
        let (mut instance, mut from, mut least) = (0, 0, 0);
        while instance < releases {
            if let Some((served, next)) = self.serve(scenario, instance, from, best) {
                (instance, from) = (instance + served, next);
                continue;
            }
            let search = Search::Start(self.blocking + instance * frame.length);
            let start = search.settle(scenario, least, LIMITS.window - 1)?;
            (from, least) = (start, start + frame.length);
            let queued = distance + instance * frame.period;
            best = best.max(least.saturating_sub(queued));
            instance += 1;
        }
        Some(best)
    }
}

/// How many instances are released before a limit of the window.
fn released(scenario: Scenario, limit: u64) -> u64 {
    let Placed { frame, distance } = scenario.fixed[0];
    frame.count(distance, limit)
}

/// A start up to the latest and its load or a bound of it: one that is tried, or else the first one
/// from a number on.
fn found_start(start: Search, scenario: Scenario, from: u64, latest: u64) -> Option<(u64, u64)> {
    let load = start.load_above(scenario, latest);
    if load <= latest {
        return Some((latest, load));
    }
    if !scenario.open.is_empty() {
        let mut x = from;
        for _ in 0..STEPS {
            let load = if x <= latest { start.load_above(scenario, x) } else { break };
            if load <= x {
                return Some((x, load));
            }
            x = load;
        }
        let load = start.full_load(scenario, latest);
        if load <= latest {
            return Some((latest, load));
        }
    }
    let found = start.settle(scenario, from, latest)?;
    Some((found, start.full_load(scenario, found)))
}
