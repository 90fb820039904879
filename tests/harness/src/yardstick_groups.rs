//! The yardstick's groups: their frames, and the greatest work over their alignments.

use analyser::lengths::{length, LengthTable};
use analyser::table::{Row, MOST_LINES, OFFSET, PERIOD};
use std::array::from_fn;
use std::cell::RefCell;

/// Numbers below 2^21 are divided by a period with its inverse times 2^41.
const SHIFT: u32 = 41;

/// A frame ahead.
#[derive(Clone, Copy)]
pub struct Frame {
    /// The offset modulo the period.
    phase: u64,
    pub period: u64,
    pub length: u64,
    inverse: u64,
}

impl Frame {
    pub fn new(lengths: &LengthTable, row: &Row) -> Frame {
        let period = u64::from(row[PERIOD]);
        let inverse = (1 << SHIFT) / period + 1;
        Frame {
            phase: u64::from(row[OFFSET]) % period,
            period,
            length: length(lengths, row),
            inverse,
        }
    }

    fn divide(&self, ticks: u64) -> u64 {
        ticks.wrapping_mul(self.inverse) >> SHIFT
    }

    /// When it is queued first, from an instant on.
    fn next(&self, instant: u64) -> u64 {
        self.phase.wrapping_add(self.count(self.phase, instant).wrapping_mul(self.period))
    }

    /// How long after an instant it is queued.
    fn distance(&self, instant: u64) -> u64 {
        self.next(instant).wrapping_sub(instant)
    }

    /// How often it is queued in the first n ticks, first at a distance.
    pub fn count(&self, distance: u64, n: u64) -> u64 {
        self.divide(n.wrapping_add(self.period).wrapping_sub(distance).wrapping_sub(1))
    }

    fn work(&self, distance: u64, n: u64) -> u64 {
        self.count(distance, n).wrapping_mul(self.length)
    }
}

fn common_multiple(a: u64, b: u64) -> u64 {
    let (mut divisor, mut rest) = (a, b);
    while rest > 0 {
        (divisor, rest) = (rest, divisor % rest);
    }
    a / divisor * b
}

fn first_alignment(frames: &[Frame]) -> u64 {
    frames.iter().map(|frame| frame.phase).min().expect("a group with frames")
}

/// A frame seen from an alignment of its group.
#[derive(Clone, Copy)]
pub struct Placed {
    pub frame: Frame,
    pub distance: u64,
}

/// The work of placed frames in the first n ticks.
pub fn work(placed: &[Placed], n: u64) -> u64 {
    placed.iter().map(|each| each.frame.work(each.distance, n)).fold(0, u64::wrapping_add)
}

/// The frames of a group at one alignment after the other, without divisions; room beyond them holds
/// frames of no length that are never queued.
struct Walk<const ROOM: usize> {
    alignment: u64,
    /// How long after the alignment a frame is queued, or queued again.
    ahead: [i32; ROOM],
    periods: [i32; ROOM],
    lengths: [i32; ROOM],
    /// What n ticks leave beyond whole periods.
    rests: [i32; ROOM],
    /// The work in these periods.
    whole: u64,
}

impl<const ROOM: usize> Walk<ROOM> {
    /// At the first alignment, for the work in the first n ticks.
    fn new(frames: &[Frame], n: u64) -> Walk<ROOM> {
        let (alignment, none) = (first_alignment(frames), [0; ROOM]);
        let (ahead, periods, lengths, rests) = ([i32::MAX; ROOM], none, none, none);
        let mut walk = Walk { alignment, ahead, periods, lengths, rests, whole: 0 };
        for (at, frame) in frames.iter().enumerate() {
            let count = frame.divide(n);
            walk.ahead[at] = (frame.phase - alignment) as i32;
            walk.periods[at] = frame.period as i32;
            walk.lengths[at] = frame.length as i32;
            walk.rests[at] = (n - count * frame.period) as i32;
            walk.whole += count * frame.length;
        }
        walk
    }

    /// The first alignment with the greatest work, and that.
    fn best(mut self, end: u64) -> (u64, u64) {
        let (mut best, mut gap) = ((self.alignment, 0), 0);
        while self.alignment < end {
            let (work, next) = self.step(gap);
            if work > best.1 {
                best = (self.alignment, work);
            }
            gap = next;
            self.alignment += gap as u64;
        }
        (best.0, self.whole + best.1 as u64)
    }

    /// Goes on by a gap: the work in the rests there, and the gap to the next alignment.
    fn step(&mut self, gap: i32) -> (i32, i32) {
        let distances: [i32; ROOM] = from_fn(|at| self.ahead[at].wrapping_sub(gap));
        let queued = |at| if distances[at] < self.rests[at] { self.lengths[at] } else { 0 };
        let works: [i32; ROOM] = from_fn(queued);
        let again = |at| if distances[at] == 0 { self.periods[at] } else { distances[at] };
        self.ahead = from_fn(again);
        let next = self.ahead.into_iter().fold(i32::MAX, i32::min);
        (works.into_iter().fold(0, i32::wrapping_add), next)
    }
}

/// The greatest work is the same from one length to another.
#[derive(Clone, Copy, Default)]
struct Stair {
    low: u64,
    high: u64,
    work: u64,
}

/// So many stairs share a place, and so many places has a group for each of its frames.
const WAYS: usize = 4;
const FRAME_SETS: usize = 2;

/// What is kept of a group's greatest works.
struct Memory {
    /// Stairs below the turn, by the part of it that they are in.
    stairs: Vec<[Stair; WAYS]>,
    /// The alignment found best last, at first the first one.
    guess: u64,
    /// The lengths that were looked at, where they are counted.
    looks: Option<Vec<u64>>,
}

impl Memory {
    fn work(&self, set: usize, n: u64) -> Option<u64> {
        let is_on = |stair: &&Stair| (stair.low..=stair.high).contains(&n);
        self.stairs[set].iter().find(is_on).map(|stair| stair.work)
    }

    /// Widens the stair of this work, or puts one at the first empty place, or else at the last.
    /// Lengths go round the turn in order, so that the one asked for longest ago comes next: the
    /// last in, first out keeps most of them.
    fn keep(&mut self, set: usize, n: u64, work: u64) {
        let set = &mut self.stairs[set];
        if let Some(stair) = set.iter_mut().find(|stair| stair.work == work) {
            (stair.low, stair.high) = (stair.low.min(n), stair.high.max(n));
            return;
        }
        let empty = set.iter().position(|stair| stair.work == 0);
        set[empty.unwrap_or(WAYS - 1)] = Stair { low: n, high: n, work };
    }
}

/// A group's frames ahead, which look the same after each turn, and what is kept of its greatest
/// works.
pub struct Group {
    frames: Vec<Frame>,
    turn: u64,
    turn_work: u64,
    memory: RefCell<Memory>,
}

impl Group {
    pub fn new(frames: Vec<Frame>) -> Group {
        let turn = frames.iter().fold(1, |turn, frame| common_multiple(turn, frame.period));
        let guess = first_alignment(&frames);
        let turn_work = frames.iter().map(|frame| turn / frame.period * frame.length).sum();
        let stairs = vec![Default::default(); FRAME_SETS * frames.len()];
        let memory = RefCell::new(Memory { stairs, guess, looks: None });
        Group { frames, turn, turn_work, memory }
    }

    pub fn turn(&self) -> u64 {
        self.turn
    }

    /// The alignment after another, or the turn.
    fn next(&self, alignment: u64) -> u64 {
        let after = alignment + 1;
        self.frames.iter().map(|frame| frame.next(after)).fold(self.turn, u64::min)
    }

    /// Its alignments of the first turn, rising.
    pub fn alignments(&self) -> impl Iterator<Item = u64> + '_ {
        let first = Some(first_alignment(&self.frames));
        let next = |alignment: &u64| Some(self.next(*alignment));
        std::iter::successors(first, next).take_while(|next| *next < self.turn)
    }

    /// The same for the judged frame's own group, but first the one at which that frame, its first, is released: its response
    /// is mostly the greatest there.
    pub fn own_alignments(&self) -> impl Iterator<Item = u64> + '_ {
        std::iter::once(self.frames[0].phase).chain(self.alignments())
    }

    /// The first alignment with the greatest work in the first n ticks, and that.
    fn best(&self, n: u64) -> (u64, u64) {
        let (frames, end) = (&self.frames[..], self.turn);
        match frames.len() {
            1 => Walk::<1>::new(frames, n).best(end),
            2 => Walk::<2>::new(frames, n).best(end),
            3 => Walk::<3>::new(frames, n).best(end),
            4 => Walk::<4>::new(frames, n).best(end),
            5..=8 => Walk::<8>::new(frames, n).best(end),
            9..=16 => Walk::<16>::new(frames, n).best(end),
            17..=32 => Walk::<32>::new(frames, n).best(end),
            _ => Walk::<MOST_LINES>::new(frames, n).best(end),
        }
    }

    /// The greatest work in the first n ticks: that of whole turns, and that of the rest.
    pub fn greatest(&self, n: u64) -> u64 {
        let (turns, rest) = (n / self.turn, n % self.turn);
        turns * self.turn_work + self.greatest_below(rest)
    }

    /// That in fewer ticks than a turn has.
    fn greatest_below(&self, n: u64) -> u64 {
        let memory = &mut *self.memory.borrow_mut();
        let set = (n * memory.stairs.len() as u64 / self.turn) as usize;
        memory.work(set, n).unwrap_or_else(|| {
            let (alignment, work) = self.best(n);
            memory.keep(set, n, work);
            memory.guess = alignment;
            memory.looks.iter_mut().for_each(|looks| looks.push(n));
            work
        })
    }

    /// An alignment that may be the best.
    pub fn guess(&self) -> u64 {
        self.memory.borrow().guess
    }

    /// Keeps the lengths that are looked at from now on.
    pub fn watch(&mut self) {
        self.memory.get_mut().looks = Some(Vec::new());
    }

    /// These lengths.
    pub fn looks(self) -> Vec<u64> {
        self.memory.into_inner().looks.unwrap_or_default()
    }

    /// At most so much work in the first n ticks, whatever the alignment.
    pub fn above(&self, n: u64) -> u64 {
        self.frames.iter().map(|frame| frame.work(0, n)).sum()
    }

    pub fn place(&self, alignment: u64, placed: &mut Vec<Placed>) {
        let each = |frame: &Frame| Placed { frame: *frame, distance: frame.distance(alignment) };
        placed.extend(self.frames.iter().map(each));
    }
}
