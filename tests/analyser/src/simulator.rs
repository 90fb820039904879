//! The bus rule of document 01, from one transmission to the next.

use crate::bounds::rank;
use crate::table::{Row, GROUP, GROUPS, OFFSET, PERIOD};

/// The start of each group, group 1 first.
pub type Starts = [u64; GROUPS as usize];

/// Chooses how long a row's next transmission takes.
pub type Lengths<'a> = &'a mut dyn FnMut(&Row) -> u64;

#[derive(Clone, Copy, Debug, PartialEq, Eq)]
pub struct Transmission {
    pub row: usize,
    pub instance: u64,
    pub start: u64,
    pub length: u64,
}

impl Transmission {
    pub fn end(&self) -> u64 {
        self.start + self.length
    }
}

/// The tick at which an instance of a row is queued.
pub fn release(row: &Row, starts: &Starts, instance: u64) -> u64 {
    let start = starts[row[GROUP] as usize - 1];
    start + u64::from(row[OFFSET]) + instance * u64::from(row[PERIOD])
}

/// The oldest instance of a row that is not sent yet.
struct Pending {
    row: usize,
    instance: u64,
    release: u64,
}

/// All transmissions that start before a tick, in order.
pub fn schedule(rows: &[Row], starts: &Starts, until: u64, lengths: Lengths) -> Vec<Transmission> {
    let mut pending = by_priority(rows, starts);
    let mut list = Vec::new();
    let mut free = 0;
    loop {
        let earliest = pending.iter().map(|next| next.release).min();
        let start = free.max(earliest.unwrap_or(until));
        if start >= until {
            return list;
        }
        let best = pending.iter_mut().find(|next| next.release <= start);
        let best = best.expect("the earliest is queued by then");
        let length = lengths(&rows[best.row]);
        list.push(Transmission { row: best.row, instance: best.instance, start, length });
        free = start + length;
        best.instance += 1;
        best.release = release(&rows[best.row], starts, best.instance);
    }
}

fn by_priority(rows: &[Row], starts: &Starts) -> Vec<Pending> {
    let first = |row| Pending { row, instance: 0, release: release(&rows[row], starts, 0) };
    let mut pending: Vec<Pending> = (0..rows.len()).map(first).collect();
    pending.sort_by_key(|next| rank(&rows[next.row]));
    pending
}

#[cfg(test)]
mod tests {
    use super::*;
    use crate::lengths::{self, STANDARD};
    use crate::table_cases::WHOLE_CASE;

    fn length(row: &Row) -> u64 {
        lengths::length(&STANDARD, row)
    }

    /// Both groups start at once: 16 and 64 meet at 0, 64 goes second.
    #[test]
    fn whole_case_from_tick_0() {
        let list = schedule(&WHOLE_CASE, &[0; 16], 1000, &mut length);
        let seen: Vec<_> = list.iter().map(|sent| (sent.row, sent.start, sent.end())).collect();
        assert_eq!(seen, [(0, 0, 135), (3, 135, 200), (1, 200, 255), (2, 300, 435)]);
    }

    /// A better frame queued at the very tick wins, one queued a tick later waits.
    #[test]
    fn queued_at_the_tick() {
        let mut starts = [0; 16];
        starts[1] = 300;
        let list = schedule(&WHOLE_CASE, &starts, 500, &mut length);
        assert_eq!((list[3].row, list[3].start), (3, 435));
        starts[1] = 299;
        let list = schedule(&WHOLE_CASE, &starts, 500, &mut length);
        assert_eq!((list[2].row, list[3].start), (3, 364));
    }
}
