//! The bus rule with faults (document 02, request 9), from one transmission to the next.

use crate::bounds::rank;
use crate::faults::SIGNALLING;
use crate::simulator::{release, Starts};
use crate::table::Row;

/// A transmission; a cut one is marked with the tick of its fault, in which it still holds the bus. Its
/// length is what it would have taken.
#[derive(Clone, Copy, Debug, PartialEq, Eq)]
pub struct Attempt {
    pub row: usize,
    pub instance: u64,
    pub start: u64,
    pub length: u64,
    pub fault: Option<u64>,
}

impl Attempt {
    /// When the bus is free again: behind the transmission, or behind the signalling.
    pub fn free(&self) -> u64 {
        match self.fault {
            Some(fault) => fault + 1 + SIGNALLING,
            None => self.start + self.length,
        }
    }

    /// The last tick of the transmission if no fault cuts it.
    pub fn last(&self) -> u64 {
        self.start + self.length - 1
    }
}

/// Chooses what becomes of a transmission that starts: its length, and its fault if it is cut.
pub type Fate<'a> = &'a mut dyn FnMut(usize, u64) -> (u64, Option<u64>);

/// All transmissions that start before a tick, in order; with the row and the start of each its fate is
/// asked for. Faults lie in their transmissions' ticks, at least a gap apart.
pub fn schedule(rows: &[Row], starts: &Starts, until: u64, gap: u64, fate: Fate) -> Vec<Attempt> {
    let mut by_rank: Vec<usize> = (0..rows.len()).collect();
    by_rank.sort_by_key(|row| rank(&rows[*row]));
    let mut next = vec![0; rows.len()];
    let mut list: Vec<Attempt> = Vec::new();
    let (mut free, mut earliest_fault) = (0, 0);
    loop {
        let queued_at = |row: usize| release(&rows[row], starts, next[row]);
        let earliest = by_rank.iter().map(|row| queued_at(*row)).min().expect("a row");
        let start = free.max(earliest);
        if start >= until {
            return list;
        }
        let row = by_rank.iter().copied().find(|row| queued_at(*row) <= start);
        let row = row.expect("the earliest is queued by then");
        let (length, fault) = fate(row, start);
        let attempt = Attempt { row, instance: next[row], start, length, fault };
        if let Some(fault) = fault {
            assert!((start..=attempt.last()).contains(&fault) && fault >= earliest_fault);
            earliest_fault = fault + gap;
        } else {
            next[row] += 1;
        }
        free = attempt.free();
        list.push(attempt);
    }
}
