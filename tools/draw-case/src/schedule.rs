//! The schedule of a case: what is on the bus from the window's start to the end of the late instance.

use crate::table::Frame;

pub const GROUPS: usize = 16;

/// The alignment of each group, group 1 first, and the late instance, from 1.
pub struct Case {
    pub alignments: [u64; GROUPS],
    pub instance: u64,
}

/// Whether a frame is better than the judged one, the judged one, or the one that blocks it.
#[derive(Clone, Copy, Debug, PartialEq, Eq)]
pub enum Role {
    Better,
    Judged,
    Blocking,
}

/// A transmission of an instance, counted from 1 in the window. Ticks count from the window's start.
#[derive(Clone, Copy, Debug, PartialEq, Eq)]
pub struct Bar {
    pub instance: u64,
    pub start: i64,
    pub end: i64,
}

/// A frame, when it is queued, and when it is sent.
pub struct Line {
    pub frame: Frame,
    pub role: Role,
    pub releases: Vec<i64>,
    pub bars: Vec<Bar>,
}

/// The frames ahead by rank, then the blocking one; and how many more there are below, which are not sent.
pub struct Schedule {
    pub lines: Vec<Line>,
    pub others: usize,
    /// Alignments of the groups with frames ahead.
    pub alignments: Vec<(u64, u64)>,
    pub claim: i64,
    /// When the late instance is queued, starts and ends.
    pub queueing: i64,
    pub late: Bar,
}

impl Schedule {
    /// The schedule of a case of the frame at a place in the table.
    pub fn new(frames: &[Frame], judged: usize, case: &Case) -> Schedule {
        let judged = &frames[judged];
        let mut ahead: Vec<&Frame> = frames.iter().filter(|f| f.rank() <= judged.rank()).collect();
        ahead.sort_by_key(|frame| frame.rank());
        let below = frames.iter().filter(|frame| frame.rank() > judged.rank());
        let blocking = below.max_by_key(|frame| (frame.length, std::cmp::Reverse(frame.rank())));
        let distances: Vec<u64> = ahead.iter().map(|frame| distance(frame, case)).collect();
        let (bars, late) = transmissions(&ahead, &distances, blocking, case.instance);
        let line = |(at, bars): (usize, Vec<Bar>)| {
            let period = ahead[at].period as usize;
            let releases = (distances[at] as i64..late.end).step_by(period).collect();
            let is_judged = at + 1 == ahead.len();
            let role = if is_judged { Role::Judged } else { Role::Better };
            Line { frame: *ahead[at], role, releases, bars }
        };
        let mut lines: Vec<Line> = bars.into_iter().enumerate().map(line).collect();
        lines.extend(blocking.map(blocking_line));
        let has_frames = |group: &u64| ahead.iter().any(|frame| frame.group == *group);
        let groups = (1..=GROUPS as u64).filter(has_frames);
        let alignments = groups.map(|group| (group, case.alignments[group as usize - 1]));
        let before = (case.instance - 1) * judged.period;
        Schedule {
            others: frames.len() - lines.len(),
            lines,
            alignments: alignments.collect(),
            claim: judged.claim as i64,
            queueing: (distance(judged, case) + before) as i64,
            late,
        }
    }

    pub fn response(&self) -> i64 {
        self.late.end - self.queueing
    }

    /// The first tick that is drawn.
    pub fn begin(&self) -> i64 {
        let starts = self.lines.iter().flat_map(|line| line.bars.first()).map(|bar| bar.start);
        starts.min().unwrap_or(0).min(0)
    }
}

/// From the window's start to a frame's first queueing.
fn distance(frame: &Frame, case: &Case) -> u64 {
    let alignment = case.alignments[frame.group as usize - 1];
    (frame.offset % frame.period + frame.period - alignment % frame.period) % frame.period
}

/// It started a tick before the window, at the latest.
fn blocking_line(frame: &Frame) -> Line {
    let bar = Bar { instance: 1, start: -1, end: frame.length as i64 - 1 };
    Line { frame: *frame, role: Role::Blocking, releases: Vec::new(), bars: vec![bar] }
}

/// The bars of each frame ahead, the judged one last, until its late instance ends; and that one. All
/// transmissions take the largest length, and behind the blocking one the best frame queued goes first.
fn transmissions(
    ahead: &[&Frame],
    distances: &[u64],
    blocking: Option<&Frame>,
    instance: u64,
) -> (Vec<Vec<Bar>>, Bar) {
    let mut bars: Vec<Vec<Bar>> = vec![Vec::new(); ahead.len()];
    let next =
        |at: usize, bars: &[Vec<Bar>]| distances[at] + bars[at].len() as u64 * ahead[at].period;
    let mut free = blocking.map_or(0, |frame| frame.length - 1);
    loop {
        let queued = |at: &usize| next(*at, &bars) <= free;
        let Some(best) = (0..ahead.len()).find(queued) else {
            free = (0..ahead.len()).map(|at| next(at, &bars)).min().expect("a frame");
            continue;
        };
        let (start, end) = (free as i64, (free + ahead[best].length) as i64);
        let bar = Bar { instance: bars[best].len() as u64 + 1, start, end };
        bars[best].push(bar);
        if best + 1 == ahead.len() && bar.instance == instance {
            return (bars, bar);
        }
        free = end as u64;
    }
}
