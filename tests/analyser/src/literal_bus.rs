//! The bus rule followed tick by tick, sharing only types with the simulator.

use crate::faulty_bus::Attempt;
use crate::literal::goes_ahead;
use crate::simulator::{Lengths, Starts, Transmission};
use crate::table::Row;

/// A queueing: its row and its number.
type Instance = (usize, u64);

/// All transmissions that start before a tick, in order.
pub fn schedule(rows: &[Row], starts: &Starts, until: u64, lengths: Lengths) -> Vec<Transmission> {
    let mut queue: Vec<Instance> = Vec::new();
    let mut list = Vec::new();
    let mut ticks_left = 0;
    for tick in 0..until {
        queue.extend((0..rows.len()).filter_map(|row| queued_at(tick, row, &rows[row], starts)));
        if ticks_left == 0 && !queue.is_empty() {
            let (row, instance) = queue.remove(best(rows, &queue));
            let length = lengths(&rows[row]);
            list.push(Transmission { row, instance, start: tick, length });
            ticks_left = length;
        }
        ticks_left = ticks_left.saturating_sub(1);
    }
    list
}

/// The same where some transmissions are cut: what is sent when a fault begins ends with its tick and stays
/// queued, and 31 ticks of signalling follow.
pub fn schedule_with_faults(
    rows: &[Row],
    starts: &Starts,
    until: u64,
    faults: &[u64],
    lengths: &mut dyn FnMut() -> u64,
) -> Vec<Attempt> {
    let mut queue: Vec<Instance> = Vec::new();
    let mut list: Vec<Attempt> = Vec::new();
    let (mut ticks_left, mut signalling) = (0, 0);
    for tick in 0..until {
        queue.extend((0..rows.len()).filter_map(|row| queued_at(tick, row, &rows[row], starts)));
        if ticks_left + signalling == 0 && !queue.is_empty() {
            let (row, instance) = queue.remove(best(rows, &queue));
            ticks_left = lengths();
            let length = ticks_left;
            list.push(Attempt { row, instance, start: tick, length, fault: None });
        }
        if signalling > 0 {
            signalling -= 1;
        } else if ticks_left > 0 && faults.contains(&tick) {
            let cut = list.last_mut().expect("a transmission");
            cut.fault = Some(tick);
            queue.insert(0, (cut.row, cut.instance));
            (ticks_left, signalling) = (0, 31);
        } else {
            ticks_left = ticks_left.saturating_sub(1);
        }
    }
    list
}

fn queued_at(tick: u64, row: usize, words: &Row, starts: &Starts) -> Option<Instance> {
    let first = starts[words[1] as usize - 1] + u64::from(words[6]);
    let since = tick.checked_sub(first)?;
    let period = u64::from(words[5]);
    (since % period == 0).then_some((row, since / period))
}

/// The place of the best-ranked frame; older instances stand further ahead.
fn best(rows: &[Row], queue: &[Instance]) -> usize {
    let mut best = 0;
    for place in 1..queue.len() {
        if goes_ahead(&rows[queue[place].0], &rows[queue[best].0]) {
            best = place;
        }
    }
    best
}
