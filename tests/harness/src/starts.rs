//! Starts of the groups of a simulated bus.

use crate::tables::{is_cheap_under, Drawn};
use analyser::bounds::{rank, View, Worst};
use analyser::judgement::LIMITS;
use analyser::lengths::length;
use analyser::random::Random;
use analyser::simulator::Starts;
use analyser::table::{self, Row, GROUP, GROUPS, OFFSET, PERIOD};

/// The most scenarios searched for the worst one.
const MOST_SCENARIOS: u64 = 500;

/// Starts at random, close together, or such that releases of all groups nearly meet.
pub fn starts(random: &mut Random, rows: &[Row]) -> Starts {
    match random.below(5) {
        0 => std::array::from_fn(|at| random.below(table::group_hyperperiod(rows, at as u32 + 1))),
        1 => std::array::from_fn(|_| random.below(500)),
        _ => meeting_starts(random, rows),
    }
}

/// Starts for which the worst scenario of a certified row meets; none by chance, or if there are too many
/// scenarios.
pub fn worst_starts(random: &mut Random, drawn: &Drawn, certified: &[usize]) -> Option<Starts> {
    if certified.is_empty() || random.percent(60) {
        return None;
    }
    let row = random.pick(certified);
    blocked_starts(None, drawn, row).map(|(starts, _)| starts)
}

/// Starts for which the worst scenario of a row meets, a tick after a long frame below is queued, and where
/// it meets; with faults at least a gap apart if there are any.
pub fn blocked_starts(gap: Option<u64>, drawn: &Drawn, row: usize) -> Option<(Starts, u64)> {
    let (_, mut instants) = worst_scenario(gap, drawn, row)?;
    if let Some(blocking) = blocking_frame(drawn, &drawn.rows[row]) {
        instants[blocking[GROUP] as usize - 1] = u64::from(blocking[OFFSET]) + 1;
    }
    let starts = starts_to_meet(&instants);
    Some((starts, starts[0] + instants[0]))
}

/// The exact bound of a row and the instants of the first scenario that gives it, where all frames have
/// begun, with faults at least a gap apart if there are any; none if there are too many scenarios, or no
/// window.
pub fn worst_scenario(gap: Option<u64>, drawn: &Drawn, row: usize) -> Option<(Worst, Vec<u64>)> {
    let view = View::under(gap, &drawn.lengths, &drawn.rows, row);
    let cheap = match gap {
        Some(_) => is_cheap_under(gap, &drawn.lengths, &drawn.rows, row),
        None => drawn.is_cheap(row),
    };
    if view.scenario_count() > MOST_SCENARIOS || !cheap {
        return None;
    }
    view.rough(LIMITS.window)?;
    let (worst, scenario) = view.worst_scenario(LIMITS.window)?;
    let instants = (1..).zip(view.instants(scenario));
    Some((worst, instants.map(|(group, instant)| begun(&drawn.rows, group, instant)).collect()))
}

/// The instant, whole hyperperiods later, from which on all frames of a group are queued as if they
/// had begun: it is less than a period before the offset of each.
fn begun(rows: &[Row], group: u32, instant: u64) -> u64 {
    let of_group = rows.iter().filter(|row| row[GROUP] == group);
    let earliest =
        of_group.map(|row| u64::from(row[OFFSET] + 1).saturating_sub(row[PERIOD].into()));
    let missing = earliest.max().unwrap_or(0).saturating_sub(instant);
    let hyperperiod = table::group_hyperperiod(rows, group);
    instant + missing.div_ceil(hyperperiod) * hyperperiod
}

/// The longest frame below, unless its group has frames ahead.
fn blocking_frame<'a>(drawn: &'a Drawn, frame: &Row) -> Option<&'a Row> {
    let (below, ahead): (Vec<&Row>, Vec<&Row>) =
        drawn.rows.iter().partition(|row| rank(row) > rank(frame));
    let longest = below.into_iter().max_by_key(|row| length(&drawn.lengths, row))?;
    let alone = ahead.iter().all(|row| row[GROUP] != longest[GROUP]);
    alone.then_some(longest)
}

/// Starts for which the instants of all groups meet.
pub fn starts_to_meet(instants: &[u64]) -> Starts {
    let meeting = instants.iter().max().expect("a group");
    std::array::from_fn(|group| meeting - instants[group])
}

/// Starts for which releases of all groups meet or nearly so.
fn meeting_starts(random: &mut Random, rows: &[Row]) -> Starts {
    let groups = 1..=GROUPS;
    let instants: Vec<u64> = groups.map(|group| some_release(random, rows, group)).collect();
    starts_to_meet(&instants).map(|start| start + random.pick(&[0, 0, 1, 1, 1, 2]))
}

/// A release of a group, counted from its start: one of the first of some frame, by which others may
/// still be to begin, or one by which all have.
fn some_release(random: &mut Random, rows: &[Row], group: u32) -> u64 {
    let of_group: Vec<&Row> = rows.iter().filter(|row| row[GROUP] == group).collect();
    if of_group.is_empty() {
        return 0;
    }
    let row = random.pick(&of_group);
    let periods = table::group_hyperperiod(rows, group) / u64::from(row[PERIOD]);
    let release = u64::from(row[OFFSET]) + random.below(periods) * u64::from(row[PERIOD]);
    if random.percent(50) {
        release
    } else {
        begun(rows, group, release)
    }
}
