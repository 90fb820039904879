//! Tables for measuring time: drawn as in document 002, and built to be as much work as possible.

use analyser::lengths::{length, STANDARD};
use analyser::random::Random;
use analyser::table::{self, Row, GROUP, MOST_LINES, NODE, PERIOD};

/// Rows in order of rank, each node a group by itself; claims of 1 ask for the exact bound of every
/// row that has one.
#[derive(Default)]
pub struct Builder {
    pub rows: Vec<Row>,
}

impl Builder {
    fn frame(&mut self, node: u32, payload: u32, period: u32, offset: u32) {
        let identifier = self.rows.len() as u32;
        self.rows.push([node, node, identifier, 11, payload, period, offset, 1]);
    }
}

/// Nodes with so many alignments each, none of which can be ruled out before the last node is
/// fixed. The others look the same from each alignment, as their second frame ranks below. The
/// last one has a short frame, and long ones a gap later: from the short one the judged frames
/// start before the gap, from the long ones behind it, so its greatest sums are too great.
pub fn alike(alignments: &[u32], period: u32, long: u32, judged: u32) -> Vec<Row> {
    let mut builder = Builder::default();
    let (last, others) = alignments.split_last().expect("a node");
    let nodes = alignments.len() as u32;
    (1..nodes).for_each(|node| builder.frame(node, 8, period, 0));
    builder.frame(nodes, 0, period, 0);
    let gap = 54 + 135 * (nodes - 1) + 55 * judged + 1;
    (0..long).for_each(|_| builder.frame(nodes, 8, period * (last - 1), gap));
    let own = if nodes < table::NODES { nodes + 1 } else { 1 };
    (0..judged).for_each(|_| builder.frame(own, 0, period, 0));
    for (node, count) in (1..).zip(others) {
        builder.frame(node, 0, period * count, 0);
    }
    builder.rows
}

/// Two frames that nearly fill the bus, with periods of 62 and another, a node as the last one
/// above, and the judged frame.
pub struct Filled {
    pub second: u32,
    pub gap: u32,
    pub judged: u32,
}

impl Filled {
    /// The first two nodes look the same from each of so many alignments.
    pub fn rows(&self, alignments: [u32; 2]) -> Vec<Row> {
        let mut builder = Builder::default();
        builder.frame(1, 0, 62, 0);
        builder.frame(2, 8, self.second, 0);
        builder.frame(3, 0, 1_000_000, 0);
        builder.frame(3, 8, 1_000_000, self.gap);
        builder.frame(4, 0, self.judged, 0);
        builder.frame(1, 0, 62 * alignments[0], 0);
        builder.frame(2, 0, self.second * alignments[1], 0);
        builder.rows
    }
}

/// Long windows in every row: two frames that nearly fill the bus, the rest once in a while.
pub fn long_windows() -> Vec<Row> {
    let mut builder = Builder::default();
    builder.frame(1, 8, 270, 0);
    builder.frame(2, 8, 274, 0);
    for line in 2..MOST_LINES as u32 {
        builder.frame(3 + line % 14, 4, 1_000_000, 0);
    }
    builder.rows
}

/// A full bus, so that the search for a window goes on to its limit.
pub fn no_windows() -> Vec<Row> {
    let mut builder = Builder::default();
    builder.frame(1, 0, 55, 0);
    for line in 1..MOST_LINES as u32 {
        builder.frame(2 + line % 15, 0, 1_000_000, 0);
    }
    builder.rows
}

/// Nodes with so many alignments each: a frequent frame, and three that come once in a while.
pub fn crowded(nodes: u32, payload: u32, period: u32, alignments: u32) -> Builder {
    let mut builder = Builder::default();
    (1..=nodes).for_each(|node| builder.frame(node, payload, period, 0));
    for place in 1..=3 {
        for node in 1..=nodes {
            builder.frame(node, payload, (alignments - 3) * period, place * period / 4);
        }
    }
    builder
}

/// The approximate bound at its most: 12650 instances of the judged frame in a window, 256
/// alignments of its own node, and 256 of each other node to be looked at for each of them.
pub fn many_looks() -> Vec<Row> {
    let mut builder = crowded(15, 0, 3758, 256);
    builder.frame(16, 0, 255 * 71, 35);
    builder.frame(16, 0, 71, 0);
    builder.rows
}

/// The approximate bound where the greatest works jump late: the judged frame's own alignments look
/// alike, and the other nodes have a frequent frame and five that come once in a while.
pub fn late_jump() -> Vec<Row> {
    const PERIOD: u32 = 3657;
    let mut builder = Builder::default();
    (1..=10).for_each(|node| builder.frame(node, 8, PERIOD, 0));
    let seldom = [(4, 1046), (7, 288_930), (3, 290_369), (0, 3367), (5, 292_084)];
    for (payload, offset) in seldom {
        (1..=10).for_each(|node| builder.frame(node, payload, 251 * PERIOD, offset));
    }
    builder.frame(16, 0, 88, 0);
    builder.frame(16, 0, 255 * 88, 0);
    builder.rows
}

/// Two frames that nearly fill the bus, as above; a node that queues bursts; and judged frames.
/// From each burst the judged frames start just before the next one comes, so that the starts of
/// one alignment are none of another's, and those last found do not serve the next scenario.
pub struct Bursts {
    /// Payloads and periods.
    pub first: (u32, u32),
    pub second: (u32, u32),
    /// When a burst is queued, and the payloads as digits.
    pub bursts: &'static [(u32, &'static str)],
    /// How many judged frames, their payload and period.
    pub judged: (u32, u32, u32),
    pub alignments: [u32; 2],
}

impl Bursts {
    pub fn rows(&self) -> Vec<Row> {
        let mut builder = Builder::default();
        let [first, second] = [self.first, self.second];
        builder.frame(1, first.0, first.1, 0);
        builder.frame(2, second.0, second.1, 0);
        for (offset, payloads) in self.bursts {
            for payload in payloads.bytes() {
                builder.frame(4, (payload - b'0').into(), 1_000_000, *offset);
            }
        }
        let (count, payload, period) = self.judged;
        (0..count).for_each(|_| builder.frame(3, payload, period, 0));
        builder.frame(1, 0, first.1 * self.alignments[0], 0);
        builder.frame(2, 0, second.1 * self.alignments[1], 0);
        builder.rows
    }
}

/// Periods in ticks of 2 microseconds, their weights, and the first of their 200 identifiers.
const PERIODS: [(u32, u64, u32); 8] = [
    (2500, 2, 1),
    (5000, 5, 201),
    (10_000, 5, 401),
    (25_000, 10, 601),
    (50_000, 10, 801),
    (100_000, 5, 1001),
    (250_000, 2, 1201),
    (500_000, 2, 1401),
];

/// Payloads and their weights.
const PAYLOADS: [(u32, u64); 8] = [(1, 1), (2, 1), (3, 1), (4, 2), (5, 3), (6, 4), (7, 5), (8, 6)];

/// How a table of document 002's kind is drawn.
#[derive(Clone, Copy)]
pub struct Drawing {
    pub seed: u64,
    pub nodes: u32,
    /// The unit of offsets: 2500 ticks there, 1 for fine ones.
    pub unit: u32,
    /// Claims are the periods; otherwise 1.
    pub deadlines: bool,
}

impl Drawing {
    /// A table by appendix A: a load of 40 to 60 %, of which node 1 has 30 %. What a node's pattern
    /// does not allow goes to another node, and the table ends with 64 lines.
    pub fn rows(self) -> Vec<Row> {
        let mut random = Random::new(self.seed);
        let nodes = self.nodes;
        let wanted = random.between(400_000, 600_000);
        let mut rows: Vec<Row> = Vec::new();
        for _ in 0..10 * MOST_LINES {
            if rows.len() == MOST_LINES || load(&rows) >= wanted {
                break;
            }
            let first = if random.percent(30) { 1 } else { random.between(2, nodes.into()) as u32 };
            let row = self.frame(&mut random);
            let fitting = (0..nodes).map(|turn| with_node(row, (first - 1 + turn) % nodes + 1));
            let mut accepted = fitting.filter(|row| accepts(&rows, *row));
            rows.extend(accepted.next());
        }
        rows
    }

    /// A frame with the node still open.
    fn frame(self, random: &mut Random) -> Row {
        let (period, _, first) = weighted(random, &PERIODS, |choice| choice.1);
        let (payload, _) = weighted(random, &PAYLOADS, |choice| choice.1);
        let identifier = first + random.below(200) as u32;
        let offset = random.below((period / self.unit).into()) as u32 * self.unit;
        let claim = if self.deadlines { period } else { 1 };
        [0, 0, identifier, 11, payload, period, offset, claim]
    }
}

/// One of the choices, by its weight.
fn weighted<T: Copy>(random: &mut Random, choices: &[T], weight: impl Fn(&T) -> u64) -> T {
    let mut left = random.below(choices.iter().map(&weight).sum());
    for choice in choices {
        if left < weight(choice) {
            return *choice;
        }
        left -= weight(choice);
    }
    unreachable!("less is left than all weights")
}

fn with_node(mut row: Row, node: u32) -> Row {
    (row[NODE], row[GROUP]) = (node, node);
    row
}

fn accepts(rows: &[Row], row: Row) -> bool {
    table::check(&[rows, &[row]].concat().concat()).is_ok()
}

/// The load in parts of a million, by document 01's lengths.
fn load(rows: &[Row]) -> u64 {
    rows.iter().map(|row| length(&STANDARD, row) * 1_000_000 / u64::from(row[PERIOD])).sum()
}
