//! Accepted tables of many shapes, cheap enough to judge.

use crate::lengths;
use analyser::bounds::{rank, View};
use analyser::faults::SIGNALLING;
use analyser::judge_cases::{
    self, apart, counted_table, long_window_table, LONG_WINDOWS, NO_ROUGH_WINDOW,
};
use analyser::judgement::LIMITS;
use analyser::lengths::{length, LengthTable, PAYLOADS, STANDARD};
use analyser::random::{begin_late, clustered, give_nodes, set_claim, Random};
use analyser::table::{
    self, Row, CLAIM, GROUP, GROUPS, IDENTIFIER, KIND, NODE, NODES, OFFSET, PERIOD,
};

/// The greatest effort for a row of any shape.
const MOST_EFFORT: u64 = 300_000;

/// So many alignments of open groups are about as much work as one combination, and of so many
/// combinations of a level one is looked at.
const OPEN: u64 = 64;
const RULED_OUT: u64 = 16;

/// Load in parts of this.
const WHOLE: u64 = 1_000_000;

/// Lengths, an accepted table, and a row of it that is not too much work by them.
#[derive(Clone)]
pub struct Drawn {
    pub lengths: LengthTable,
    pub rows: Vec<Row>,
    pub row: usize,
}

impl Drawn {
    /// Whether another row is not too much work either.
    pub fn is_cheap(&self, row: usize) -> bool {
        row == self.row || is_cheap(&self.lengths, &self.rows, row)
    }
}

/// Draws lengths, a table and a row.
pub fn draw(random: &mut Random) -> Drawn {
    let lengths = lengths::draw(random);
    draw_by(random, lengths)
}

/// Draws a table and a row by lengths, and a claim for it, mostly at or beside its bounds. What is made
/// to stand at a limit is by document 01's lengths.
pub fn draw_by(random: &mut Random, lengths: LengthTable) -> Drawn {
    let mut drawn = match random.below(100) {
        0..=5 => near_the_limit(random),
        6..=9 => many_scenarios(random),
        10..=17 => many_undecided(random, lengths),
        18..=39 => bounds_apart(random, lengths),
        _ => cheap_row(random, lengths),
    };
    begin_late(random, &mut drawn.rows);
    set_claim(random, &drawn.lengths, &mut drawn.rows, drawn.row, LIMITS);
    if random.percent(8) {
        drawn.rows[drawn.row][CLAIM] = random.pick(&[1, 1_000_000]);
    }
    drawn
}

/// A row of any shape that is not too much work.
fn cheap_row(random: &mut Random, lengths: LengthTable) -> Drawn {
    loop {
        let rows = shape(random, &lengths);
        let row = random.below(rows.len() as u64) as usize;
        if table::check(&rows.concat()).is_ok() && is_cheap(&lengths, &rows, row) {
            return Drawn { lengths, rows, row };
        }
    }
}

/// A row whose exact bound is below the rough one; the last in rank is the likeliest.
fn bounds_apart(random: &mut Random, lengths: LengthTable) -> Drawn {
    loop {
        let rows = match random.below(10) {
            0..=5 => clustered(random, &lengths, 2, 6, (105, 150)),
            6..=7 => judge_cases::close(random, &lengths),
            8 => judge_cases::full(random, &lengths),
            _ => shape(random, &lengths),
        };
        let any = random.below(rows.len() as u64) as usize;
        for row in [lowest(&rows), any] {
            let accepted = table::check(&rows.concat()).is_ok();
            let cheap = accepted && is_cheap(&lengths, &rows, row);
            if cheap && apart(&View::new(&lengths, &rows, row)) {
                return Drawn { lengths, rows, row };
            }
        }
    }
}

/// Three or four carts of many alignments; some of the levels decide, and some end before the cart that
/// would.
fn many_undecided(random: &mut Random, lengths: LengthTable) -> Drawn {
    loop {
        let mut rows = judge_cases::three_carts(random, &lengths);
        let row = rows.len() - 1;
        if table::check(&rows.concat()).is_ok() && is_cheap(&lengths, &rows, row) {
            give_nodes(random, &mut rows);
            return Drawn { lengths, rows, row };
        }
    }
}

/// The row of the lowest priority.
pub fn lowest(rows: &[Row]) -> usize {
    let places = 0..rows.len();
    places.max_by_key(|row| rank(&rows[*row])).expect("a row")
}

/// Rows that are accepted or nearly so.
fn shape(random: &mut Random, lengths: &LengthTable) -> Vec<Row> {
    match random.below(100) {
        0..=29 => judge_cases::close(random, lengths),
        30..=37 => judge_cases::full(random, lengths),
        38..=51 => judge_cases::filled(random, lengths),
        52..=67 => judge_cases::wide(random, lengths),
        68..=79 => judge_cases::long(random, lengths),
        80..=87 => judge_cases::short(random, lengths),
        88..=92 => nearly_full(random, lengths),
        93..=96 => clustered(random, lengths, GROUPS.into(), 8, (110, 300)),
        _ => lone_frame(random, lengths),
    }
}

/// A frame of each kind and payload, but for two, each of its own node and any group, and queued at
/// every tick: by its load sheet a length is a node's quotient / 10000.
pub fn one_of_each(random: &mut Random) -> Vec<Row> {
    let payloads = || 0..PAYLOADS as u32;
    let of_kind = |kind| payloads().map(move |payload| [0, 0, payload, kind, payload, 1, 0, 500]);
    let mut rows: Vec<Row> = of_kind(11).chain(of_kind(29)).collect();
    random.shuffle(&mut rows);
    rows.truncate(NODES as usize);
    for (node, row) in (1..).zip(&mut rows) {
        (row[NODE], row[GROUP]) = (node, random.between(1, GROUPS.into()) as u32);
    }
    rows
}

/// Sets the claims of all rows that are not too much work.
pub fn claim_all(random: &mut Random, lengths: &LengthTable, rows: &mut [Row]) {
    for row in 0..rows.len() {
        if is_cheap(lengths, rows, row) {
            set_claim(random, lengths, rows, row, LIMITS);
        }
    }
}

/// Whether judging a row of accepted rows is not too much work.
pub fn is_cheap(lengths: &LengthTable, rows: &[Row], row: usize) -> bool {
    is_cheap_under(None, lengths, rows, row)
}

/// The same where faults begin at least a gap apart.
pub fn is_cheap_under(gap: Option<u64>, lengths: &LengthTable, rows: &[Row], row: usize) -> bool {
    effort(gap, lengths, rows, row) <= MOST_EFFORT
}

/// About how many sums it takes to judge a row.
fn effort(gap: Option<u64>, lengths: &LengthTable, rows: &[Row], row: usize) -> u64 {
    let view = View::under(gap, lengths, rows, row);
    let counts: Vec<u64> = view.alignment_counts().collect();
    let own = counts[rows[row][GROUP] as usize - 1];
    let alignments = counts.iter().sum::<u64>();
    let steps = steps(gap, lengths, rows, row);
    let search = steps * (own * alignments + combinations(&view, alignments));
    if search > MOST_EFFORT {
        return search;
    }
    let window = view.rough_window(LIMITS.window).unwrap_or(0);
    search * (1 + window / u64::from(rows[row][PERIOD]))
}

/// The scenarios, or the combinations of a level, with something for the groups that it leaves open.
fn combinations(view: &View, alignments: u64) -> u64 {
    let product = view.level_product(view.deepest_level(LIMITS.scenarios));
    if view.scenario_count() > LIMITS.scenarios {
        product * (1 + alignments / OPEN) / RULED_OUT
    } else {
        product
    }
}

/// About how many steps a search takes: the more, the nearer the load is to 1.
fn steps(gap: Option<u64>, lengths: &LengthTable, rows: &[Row], row: usize) -> u64 {
    let ahead = || rows.iter().filter(|other| rank(other) <= rank(&rows[row]));
    let longest = ahead().map(|row| length(lengths, row)).max().unwrap_or(0);
    let faults = gap.map_or(0, |gap| (SIGNALLING + longest) * WHOLE / gap);
    let load: u64 = faults + ahead().map(|row| load(lengths, row)).sum::<u64>();
    10 * WHOLE / load.abs_diff(WHOLE).max(500)
}

fn load(lengths: &LengthTable, row: &Row) -> u64 {
    length(lengths, row) * WHOLE / u64::from(row[PERIOD])
}

/// Alone on the bus, with a period beside its length.
fn lone_frame(random: &mut Random, lengths: &LengthTable) -> Vec<Row> {
    let (kind, last) = random.pick(&[(11, 2047), (29, 536_870_911)]);
    let [node, group] = [0; 2].map(|_| random.between(1, 16) as u32);
    let mut row = [node, group, 0, kind, random.below(9) as u32, 0, 0, 500];
    row[IDENTIFIER] = random.pick(&[0, 1, last - 1, last]);
    row[PERIOD] = (length(lengths, &row) + random.below(5) - 2) as u32;
    row[OFFSET] = random.below(row[PERIOD].into()) as u32;
    vec![row]
}

/// Three lone frames that leave little of the bus, and a group with rare frames.
fn nearly_full(random: &mut Random, lengths: &LengthTable) -> Vec<Row> {
    let mut rows: Vec<Row> = Vec::new();
    let mut left = WHOLE - random.between(200, 4000);
    for share in [random.between(30, 60), random.between(80, 95), 100] {
        let group = rows.len() as u32 + 1;
        let mut row = [0, group, 0, 11, random.below(9) as u32, 0, 0, 500];
        row[PERIOD] = (length(lengths, &row) * WHOLE * 100 / (left * share)) as u32 + 1;
        left = left.saturating_sub(load(lengths, &row)).max(1000);
        rows.push(row);
    }
    let period = random.between(200_000, 1_000_000) as u32;
    for _ in 0..random.between(1, 3) {
        let offset = random.pick(&[0, 0, period / 2]);
        rows.push([0, 4, 0, 11, random.below(9) as u32, period, offset, 500]);
    }
    disguised(random, rows, 0).0
}

/// Windows at and beside the longest that is served, or none for the rough bound alone.
fn near_the_limit(random: &mut Random) -> Drawn {
    let (mut rows, judged) = if random.percent(15) {
        (NO_ROUGH_WINDOW.to_vec(), NO_ROUGH_WINDOW.len() - 1)
    } else {
        long_window_table(&random.pick(LONG_WINDOWS))
    };
    random.shuffle(&mut rows[..3]);
    let (rows, row) = disguised(random, rows, judged);
    Drawn { lengths: STANDARD, rows, row }
}

/// Scenario counts at, below and above 65536, some of them powers of 2^32, with short windows.
fn many_scenarios(random: &mut Random) -> Drawn {
    let counts = match random.below(16) {
        0 => vec![256, 256],
        1 => vec![217, 151, 2],
        2 => vec![226, 145, 2],
        3 => vec![256, 256, 2],
        4 => vec![128, 128, 4],
        5 => vec![16; 4],
        6 => vec![256; 4],
        7 => vec![16; 8],
        8 => vec![16; 16],
        // Of a level: 4 × 128 × 128 = 65536, and 145 × 226 × 2 = 65540.
        9..=10 => vec![128, 128, 2, 4],
        11..=12 => vec![226, 2, 2, 145],
        _ => factors(random),
    };
    let payload = random.below(9) as u32;
    let mut rows = counted_table(&counts, payload, random.between(60, 400) as u32);
    let row = rows.len() - 1;
    // One more frame at instants that the last group has already.
    if counts[counts.len() - 1] <= 128 && random.percent(50) {
        let [node, group, _, kind, _, period, offset, claim] = rows[row - 1];
        rows.push([node, group, 1, kind, payload, period, offset, claim]);
    }
    give_nodes(random, &mut rows);
    Drawn { lengths: STANDARD, rows, row }
}

/// Numbers of alignments whose product is near 65536.
fn factors(random: &mut Random) -> Vec<u32> {
    let mut left = LIMITS.scenarios * random.between(98, 102) / 100;
    let mut factors = Vec::new();
    while left > 256 {
        let factor = random.between(12, 256);
        factors.push(factor as u32);
        left /= factor;
    }
    factors.push((left + random.below(2)).clamp(2, 256) as u32);
    factors
}

/// Other groups and nodes, patterns shifted, other identifiers in the same order, lines mixed: bounds stay.
/// A long frame may tie with the short one before it.
fn disguised(random: &mut Random, mut rows: Vec<Row>, judged: usize) -> (Vec<Row>, usize) {
    let mut groups: Vec<u32> = (1..=GROUPS).collect();
    random.shuffle(&mut groups);
    let shift = random.below(1_000_000) as u32;
    let mut first = 0;
    let mut before = 0;
    for row in &mut rows {
        if !(before == 11 && row[KIND] == 29 && random.percent(50)) {
            first += random.between(1, 200) as u32;
        }
        before = row[KIND];
        row[IDENTIFIER] = if before == 11 { first } else { first << 18 };
        row[OFFSET] = (row[OFFSET] + shift / row[GROUP]) % row[PERIOD];
        row[GROUP] = groups[row[GROUP] as usize - 1];
    }
    give_nodes(random, &mut rows);
    let wanted = rows[judged][IDENTIFIER];
    random.shuffle(&mut rows);
    let row = rows.iter().position(|row| row[IDENTIFIER] == wanted);
    (rows, row.expect("the judged row"))
}
