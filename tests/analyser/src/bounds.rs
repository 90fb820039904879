//! The rough and the exact bound of one frame.

use crate::faults::Faults;
use crate::lengths::{length, LengthTable};
use crate::table::{self, Row, CLAIM, GROUP, GROUPS, IDENTIFIER, KIND, OFFSET, PERIOD};

/// What a data frame sends while the bus settles which of several goes on, as a number whose first
/// bit is the first sent: the identifier's first 11 bits; RTR, 0, or in a long frame SRR, 1; IDE, 0
/// or 1; of a long identifier 18 bits more. 0 is dominant, so the smaller goes first (ISO 11898-1).
pub fn rank(row: &Row) -> u32 {
    let identifier = row[IDENTIFIER];
    let (first, rtr_or_srr, ide, rest) = match row[KIND] {
        11 => (identifier, 0, 0, 0),
        _ => (identifier >> 18, 1, 1, identifier % (1 << 18)),
    };
    first << 20 | rtr_or_srr << 19 | ide << 18 | rest
}

/// A frame seen from an alignment of its group.
struct Release {
    distance: u64,
    period: u64,
    length: u64,
}

impl Release {
    fn new(lengths: &LengthTable, row: &Row, instant: u64) -> Release {
        let period = u64::from(row[PERIOD]);
        let distance = (u64::from(row[OFFSET]) + period - instant % period) % period;
        let length = length(lengths, row);
        Release { distance, period, length }
    }

    /// The lengths of what it queues in 0..end-1.
    fn work(&self, end: u64) -> u64 {
        if end <= self.distance {
            return 0;
        }
        ((end - self.distance - 1) / self.period + 1) * self.length
    }
}

/// An alignment of a group with its better frames.
pub(crate) struct Alignment {
    pub(crate) instant: u64,
    better: Vec<Release>,
}

impl Alignment {
    pub(crate) fn work(&self, end: u64) -> u64 {
        self.better.iter().map(|release| release.work(end)).sum()
    }
}

/// The greatest response and the least q that gives it.
#[derive(Clone, Copy, Debug, PartialEq, Eq)]
pub struct Worst {
    pub response: u64,
    pub q: u64,
}

impl Worst {
    const NONE: Worst = Worst { response: 0, q: 0 };

    fn or(self, other: Worst) -> Worst {
        let greater = other.response > self.response;
        let sooner = other.response == self.response && other.q < self.q;
        if greater || sooner {
            other
        } else {
            self
        }
    }
}

/// Work of other groups queued in 0..end-1.
pub(crate) type Others<'a> = &'a dyn Fn(u64) -> u64;

/// The bus as the frame of one row meets it.
pub struct View<'a> {
    lengths: &'a LengthTable,
    frame: &'a Row,
    blocking: u64,
    /// None on a bus without faults.
    faults: Option<Faults>,
    pub(crate) own: usize,
    pub(crate) groups: Vec<Vec<Alignment>>,
}

impl<'a> View<'a> {
    /// The view of a row of an accepted table.
    pub fn new(lengths: &'a LengthTable, rows: &'a [Row], row: usize) -> View<'a> {
        View::by(GROUP, lengths, rows, row)
    }

    /// The view where that starts together which has the same number in a column.
    pub fn by(by: usize, lengths: &'a LengthTable, rows: &'a [Row], row: usize) -> View<'a> {
        let frame = &rows[row];
        let of_group = |group| {
            let hyperperiod = table::hyperperiod_by(rows, by, group);
            let frames = rows.iter().filter(|row| row[by] == group);
            alignments(lengths, frames, frame, hyperperiod)
        };
        View {
            lengths,
            frame,
            blocking: blocking(lengths, rows, frame),
            faults: None,
            own: frame[by] as usize - 1,
            groups: (1..=GROUPS).map(of_group).collect(),
        }
    }

    /// The view of a row where faults begin at least a gap apart, if there is one.
    pub fn under(
        gap: Option<u64>,
        lengths: &'a LengthTable,
        rows: &'a [Row],
        row: usize,
    ) -> View<'a> {
        let ahead = rows.iter().filter(|other| rank(other) <= rank(&rows[row]));
        let longest = ahead.map(|row| length(lengths, row)).max().unwrap_or(0);
        let faults = gap.map(|gap| Faults::new(gap, longest));
        View { faults, ..View::new(lengths, rows, row) }
    }

    /// What faults cost that begin in so many ticks.
    fn fault_work(&self, ticks: u64) -> u64 {
        self.faults.map_or(0, |faults| faults.work(ticks))
    }

    pub fn identifier(&self) -> u32 {
        self.frame[IDENTIFIER]
    }

    pub fn claim(&self) -> u64 {
        self.frame[CLAIM].into()
    }

    /// The number of alignments of each group, empty ones counting 1.
    pub fn alignment_counts(&self) -> impl Iterator<Item = u64> + '_ {
        self.groups.iter().map(|group| group.len() as u64)
    }

    /// The scenario count; a product beyond 64 bits stays at their greatest number.
    pub fn scenario_count(&self) -> u64 {
        self.alignment_counts().fold(1, u64::saturating_mul)
    }

    /// The rough bound, or none if an alignment of the own group has no window.
    pub fn rough(&self, limit: u64) -> Option<Worst> {
        let greatest = |end| self.greatest_others(end);
        let mut worst = Worst::NONE;
        for own in &self.groups[self.own] {
            worst = worst.or(self.worst(own, &greatest, limit)?);
        }
        Some(worst)
    }

    /// The greatest window of the rough bound, or none as for that bound.
    pub fn rough_window(&self, limit: u64) -> Option<u64> {
        let greatest = |end| self.greatest_others(end);
        let mut longest = 0;
        for own in &self.groups[self.own] {
            let frame = Release::new(self.lengths, self.frame, own.instant);
            longest = longest.max(self.window(own, &frame, &greatest, limit)?);
        }
        Some(longest)
    }

    /// The exact bound by all scenarios, groups rising, the last group fastest.
    pub fn exact(&self, limit: u64) -> Option<Worst> {
        self.worst_scenario(limit).map(|(worst, _)| worst)
    }

    /// The exact bound and the number of the first scenario that gives it.
    pub fn worst_scenario(&self, limit: u64) -> Option<(Worst, u64)> {
        let mut found = (Worst::NONE, 0);
        for number in 0..self.scenario_count() {
            let scenario = self.scenario(number);
            let others = |end| self.other_groups().map(|g| scenario[g].work(end)).sum();
            let worst = found.0.or(self.worst(scenario[self.own], &others, limit)?);
            if worst != found.0 {
                found = (worst, number);
            }
        }
        Some(found)
    }

    /// The instants of a scenario, group 1 first.
    pub fn instants(&self, number: u64) -> Vec<u64> {
        self.scenario(number).iter().map(|alignment| alignment.instant).collect()
    }

    /// The exact bound, passing over scenarios that cannot exceed one already seen.
    pub fn exact_pruned(&self, limit: u64) -> Option<u64> {
        self.level_pruned(self.groups.len(), limit)
    }

    /// The bound of a level, which fixes so many groups, passing over alignments that cannot exceed
    /// others already seen.
    pub(crate) fn level_pruned(&self, depth: usize, limit: u64) -> Option<u64> {
        let order = self.level_order();
        let is_open = |group: &usize| self.groups[*group].len() > 1;
        let (fixed, open) = order[1..].split_at(depth - 1);
        let rest: Vec<usize> = fixed.iter().copied().filter(is_open).collect();
        let open: Vec<usize> = open.iter().copied().filter(is_open).collect();
        let alone = order[1..].iter().filter(|group| !is_open(group));
        let alone: Vec<&Alignment> = alone.map(|group| &self.groups[*group][0]).collect();
        let mut best = 0;
        for own in &self.groups[self.own] {
            self.refine(own, &mut alone.clone(), [&rest, &open], limit, &mut best)?;
        }
        Some(best)
    }

    /// Fixes the first of the groups that remain to be, unless all at their greatest is too little;
    /// others stay open.
    fn refine<'b>(
        &'b self,
        own: &Alignment,
        picks: &mut Vec<&'b Alignment>,
        [rest, open]: [&[usize]; 2],
        limit: u64,
        best: &mut u64,
    ) -> Option<()> {
        let at_most = |end| {
            let fixed: u64 = picks.iter().map(|pick| pick.work(end)).sum();
            let open: u64 = rest.iter().chain(open).map(|g| self.greatest(*g, end)).sum();
            fixed + open
        };
        let worst = self.worst(own, &at_most, limit)?;
        if worst.response <= *best {
            return Some(());
        }
        let Some((next, rest)) = rest.split_first() else {
            *best = worst.response;
            return Some(());
        };
        for alignment in &self.groups[*next] {
            picks.push(alignment);
            self.refine(own, picks, [rest, open], limit, best)?;
            picks.pop();
        }
        Some(())
    }

    pub(crate) fn other_groups(&self) -> impl Iterator<Item = usize> + '_ {
        (0..self.groups.len()).filter(|group| *group != self.own)
    }

    /// The work of the other groups in 0..end-1, each at its greatest.
    fn greatest_others(&self, end: u64) -> u64 {
        self.other_groups().map(|group| self.greatest(group, end)).sum()
    }

    /// The greatest sum that any alignment of a group gives in 0..end-1.
    pub(crate) fn greatest(&self, group: usize, end: u64) -> u64 {
        let sums = self.groups[group].iter().map(|pick| pick.work(end));
        sums.max().unwrap_or(0)
    }

    /// A scenario by its number: one alignment for each group.
    pub(crate) fn scenario(&self, mut number: u64) -> Vec<&Alignment> {
        let mut picks = Vec::with_capacity(self.groups.len());
        for group in self.groups.iter().rev() {
            let count = group.len() as u64;
            picks.push(&group[(number % count) as usize]);
            number /= count;
        }
        picks.reverse();
        picks
    }

    /// The greatest response of the frame at one alignment of its group.
    pub(crate) fn worst(&self, own: &Alignment, others: Others, limit: u64) -> Option<Worst> {
        Some(self.responses(own, others, limit)?.fold(Worst::NONE, Worst::or))
    }

    /// Its responses there, for q = 1, 2, ...
    pub(crate) fn responses<'b>(
        &'b self,
        own: &'b Alignment,
        others: Others<'b>,
        limit: u64,
    ) -> Option<impl Iterator<Item = Worst> + 'b> {
        let frame = Release::new(self.lengths, self.frame, own.instant);
        let window = self.window(own, &frame, others, limit)?;
        let queueings = (frame.distance..window).step_by(frame.period as usize);
        Some(queueings.zip(1..).map(move |(queueing, q)| {
            let start = self.start(own, &frame, others, q);
            Worst { response: start + frame.length - queueing, q }
        }))
    }

    /// The least L from 1 to the limit that holds blocking and all work ahead.
    fn window(&self, own: &Alignment, frame: &Release, others: Others, limit: u64) -> Option<u64> {
        let mut end = 1;
        while end <= limit {
            let ahead = own.work(end) + frame.work(end) + others(end);
            let need = self.blocking + ahead + self.fault_work(end);
            if need <= end {
                return Some(end);
            }
            end = need;
        }
        None
    }

    /// The least w for the q-th queueing; better frames queued at w still win.
    fn start(&self, own: &Alignment, frame: &Release, others: Others, q: u64) -> u64 {
        let before = self.blocking + (q - 1) * frame.length;
        let mut start = 0;
        loop {
            let better = own.work(start + 1) + others(start + 1);
            let need = before + better + self.fault_work(start + frame.length);
            if need <= start {
                return start;
            }
            start = need;
        }
    }
}

/// The greatest length ranked below, minus 1.
fn blocking(lengths: &LengthTable, rows: &[Row], frame: &Row) -> u64 {
    let below = rows.iter().filter(|row| rank(row) > rank(frame));
    below.map(|row| length(lengths, row) - 1).max().unwrap_or(0)
}

/// The alignments of a group's frames; one empty alignment where no frame is ahead.
fn alignments<'a>(
    lengths: &LengthTable,
    frames: impl Iterator<Item = &'a Row>,
    frame: &Row,
    hyperperiod: u64,
) -> Vec<Alignment> {
    let ahead: Vec<&Row> = frames.filter(|row| rank(row) <= rank(frame)).collect();
    let mut instants: Vec<u64> = Vec::new();
    for row in &ahead {
        // A late frame is aligned as if it had begun: the offset modulo the period.
        let phase = u64::from(row[OFFSET] % row[PERIOD]);
        instants.extend((phase..hyperperiod).step_by(row[PERIOD] as usize));
    }
    instants.sort_unstable();
    instants.dedup();
    if instants.is_empty() {
        instants.push(0);
    }
    let align = |instant| {
        let better = ahead.iter().filter(|row| rank(row) < rank(frame));
        Alignment {
            instant,
            better: better.map(|row| Release::new(lengths, row, instant)).collect(),
        }
    };
    instants.into_iter().map(align).collect()
}
