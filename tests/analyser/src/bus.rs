//! The bus rule of document 01 with a queue that holds every instance by itself, from one transmission
//! to the next.

use crate::bounds::rank;
use crate::log::Line;
use crate::simulator::{release, Lengths, Starts};
use crate::table::{Row, IDENTIFIER, KIND};
use std::cmp::Reverse;
use std::collections::BinaryHeap;

/// What is queued: the best rank first, older instances of one frame first. Each frame has a rank of
/// its own.
#[derive(PartialEq, Eq, PartialOrd, Ord)]
struct Queued {
    rank: u32,
    instance: u64,
    row: usize,
}

/// What will be queued: the earliest first.
#[derive(PartialEq, Eq, PartialOrd, Ord)]
struct Coming {
    queueing: u64,
    row: usize,
    instance: u64,
}

/// A transmission that starts.
#[derive(Clone, Copy, Debug, PartialEq, Eq)]
pub struct Begun {
    pub row: usize,
    pub queueing: u64,
    pub start: u64,
}

/// The log of the first so many transmissions.
pub fn log_of(rows: &[Row], starts: &Starts, count: usize, lengths: Lengths) -> Vec<Line> {
    let mut bus = Bus::new(rows, starts);
    let mut line = || {
        let Begun { row, queueing, start } = bus.begin();
        let length = lengths(&rows[row]);
        bus.end_after(length);
        [start, rows[row][IDENTIFIER].into(), rows[row][KIND].into(), queueing, length]
    };
    (0..count).map(|_| line()).collect()
}

pub struct Bus<'a> {
    rows: &'a [Row],
    starts: &'a Starts,
    queue: BinaryHeap<Reverse<Queued>>,
    /// The next instance of each row.
    coming: BinaryHeap<Reverse<Coming>>,
    free: u64,
}

impl<'a> Bus<'a> {
    /// At tick 0 the bus is free and nothing is sent.
    pub fn new(rows: &'a [Row], starts: &'a Starts) -> Bus<'a> {
        let first = |row| Coming { queueing: release(&rows[row], starts, 0), row, instance: 0 };
        let coming = (0..rows.len()).map(|row| Reverse(first(row))).collect();
        Bus { rows, starts, queue: BinaryHeap::new(), coming, free: 0 }
    }

    /// The next transmission, at the first tick at which the bus is free and something is queued.
    pub fn begin(&mut self) -> Begun {
        let Reverse(next) = self.coming.peek().expect("a row");
        let start = if self.queue.is_empty() { self.free.max(next.queueing) } else { self.free };
        self.put_in_queue(start);
        let Reverse(best) = self.queue.pop().expect("something is queued by then");
        let queueing = release(&self.rows[best.row], self.starts, best.instance);
        self.free = start;
        Begun { row: best.row, queueing, start }
    }

    /// The transmission that was begun takes so many ticks.
    pub fn end_after(&mut self, length: u64) {
        self.free += length;
    }

    /// Queues all that is due at a tick or before.
    fn put_in_queue(&mut self, tick: u64) {
        while let Some(Reverse(next)) = self.coming.peek() {
            if next.queueing > tick {
                return;
            }
            let Coming { row, instance, .. } = *next;
            self.coming.pop();
            self.queue.push(Reverse(Queued { rank: rank(&self.rows[row]), instance, row }));
            let queueing = release(&self.rows[row], self.starts, instance + 1);
            self.coming.push(Reverse(Coming { queueing, row, instance: instance + 1 }));
        }
    }
}
