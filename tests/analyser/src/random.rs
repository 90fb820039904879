//! Random tables of several shapes from a fixed seed.

use crate::bounds::View;
use crate::judgement::{Limits, Search};
use crate::lengths::{length, LengthTable, STANDARD};
use crate::table::{
    self, Row, CLAIM, GROUP, GROUPS, IDENTIFIER, KIND, NODE, NODES, OFFSET, PERIOD,
};

/// The last offset that there is.
const LAST_OFFSET: u32 = 1_000_000;

/// A splitmix generator.
#[derive(Clone)]
pub struct Random(u64);

impl Random {
    pub fn new(seed: u64) -> Random {
        Random(seed)
    }

    /// Any word of 64 bits.
    pub fn word(&mut self) -> u64 {
        self.0 = self.0.wrapping_add(0x9e37_79b9_7f4a_7c15);
        let mut word = self.0;
        word = (word ^ (word >> 30)).wrapping_mul(0xbf58_476d_1ce4_e5b9);
        word = (word ^ (word >> 27)).wrapping_mul(0x94d0_49bb_1331_11eb);
        word ^ (word >> 31)
    }

    pub fn below(&mut self, count: u64) -> u64 {
        self.word() % count
    }

    /// Both ends included.
    pub fn between(&mut self, least: u64, most: u64) -> u64 {
        least + self.below(most - least + 1)
    }

    pub fn percent(&mut self, chance: u64) -> bool {
        self.below(100) < chance
    }

    pub fn pick<T: Copy>(&mut self, list: &[T]) -> T {
        list[self.below(list.len() as u64) as usize]
    }

    pub fn shuffle<T>(&mut self, list: &mut [T]) {
        for last in (1..list.len()).rev() {
            list.swap(last, self.below(last as u64 + 1) as usize);
        }
    }

    /// So many different groups.
    fn groups(&mut self, count: u64) -> Vec<u32> {
        let mut groups: Vec<u32> = (1..=GROUPS).collect();
        self.shuffle(&mut groups);
        groups.truncate(count as usize);
        groups
    }

    /// The kinds that a table draws from.
    fn kinds(&mut self) -> &'static [u32] {
        self.pick(&[&[11][..], &[29], &[11, 29], &[11, 29]])
    }

    /// A frame that still lacks node, identifier, period and offset.
    fn frame(&mut self, group: u32, kinds: &[u32]) -> Row {
        let payload = self.below(9) as u32;
        let claim = self.between(1, 2000) as u32;
        [0, group, 0, self.pick(kinds), payload, 1, 0, claim]
    }
}

/// Lengths within their limits: stretched by one number, rising anyhow, or mostly at the limits.
pub fn own_lengths(random: &mut Random) -> LengthTable {
    let more = random.below(120) as u32;
    let manner = random.below(4);
    let mut lengths = STANDARD.map(|line| line.map(|length| length + more));
    for length in lengths.iter_mut().flatten() {
        *length = match manner {
            0 => *length,
            1 => random.between(47, 400) as u32,
            2 => random.between(47, 160) as u32,
            _ => random.pick(&[47, 47, 48, 200, 399, 400, 400]),
        };
    }
    lengths.iter_mut().for_each(|line| line.sort_unstable());
    lengths
}

/// Groups whose frames are queued closely one after the other; the period is
/// the sum of all lengths times a percentage.
pub fn clustered(
    random: &mut Random,
    lengths: &LengthTable,
    groups: u64,
    most: u64,
    percent: (u64, u64),
) -> Vec<Row> {
    let kinds = random.kinds();
    let rising = random.percent(70);
    let mut rows = Vec::new();
    for group in random.groups(groups) {
        let count = random.between(1, most);
        let mut frames: Vec<Row> = (0..count).map(|_| random.frame(group, kinds)).collect();
        if rising {
            frames.sort_by_key(|row| length(lengths, row));
        }
        rows.extend(frames);
    }
    rows.truncate(table::MOST_LINES);
    let total: u64 = rows.iter().map(|row| length(lengths, row)).sum();
    let base = total * random.between(percent.0, percent.1) / 100;
    let mut offset = 0;
    for at in 0..rows.len() {
        if at == 0 || rows[at][GROUP] != rows[at - 1][GROUP] {
            offset = random.below(base);
        }
        let period = base * random.pick(&[1, 1, 1, 1, 2]);
        rows[at][PERIOD] = period as u32;
        rows[at][OFFSET] = (offset % period) as u32;
        offset += gap(random, length(lengths, &rows[at]), base);
    }
    finish(random, rows)
}

/// A distance to the next offset, mostly a little more than the length.
fn gap(random: &mut Random, length: u64, base: u64) -> u64 {
    let blocking = random.below(12) * 10 + 54;
    match random.below(12) {
        0 => 0,
        1 => length - 1,
        2 => length,
        3 => length + 1,
        4 => length + blocking,
        5 => length + blocking + 1,
        6 => random.below(base / 3 + 1),
        _ => length + random.below(60),
    }
}

/// Few frames with different periods that nearly fill the bus.
pub fn dense(random: &mut Random, lengths: &LengthTable, most: u64) -> Vec<Row> {
    let kinds = random.kinds();
    let count = random.between(2, most);
    let mut rows: Vec<Row> = Vec::new();
    for group in random.groups(count) {
        let mut row = random.frame(group, kinds);
        row[PERIOD] = random.between(75, 125) as u32;
        if let Some(last) = rows.last().filter(|_| random.percent(20)) {
            row[GROUP] = last[GROUP];
            row[PERIOD] = last[PERIOD];
        }
        rows.push(row);
    }
    let weight = |row: &Row| length(lengths, row) * 1000 / u64::from(row[PERIOD]);
    let load: u64 = rows.iter().map(weight).sum();
    let target = random.between(950, 1001);
    for row in &mut rows {
        let period = u64::from(row[PERIOD]) * load / target;
        row[PERIOD] = period.max(1) as u32;
        row[OFFSET] = random.below(u64::from(row[PERIOD])) as u32;
    }
    finish(random, rows)
}

/// Groups with a period and a multiple of it, so that alignments are many.
pub fn stretched(random: &mut Random, groups: u64, multiple: u64, base: u64) -> Vec<Row> {
    let kinds = random.kinds();
    let mut rows = Vec::new();
    for group in random.groups(groups) {
        let period = random.between(base, 2 * base);
        for times in [1, random.between(1, multiple)] {
            let mut row = random.frame(group, kinds);
            row[PERIOD] = (period * times) as u32;
            row[OFFSET] = random.below(period * times) as u32;
            rows.push(row);
        }
    }
    finish(random, rows)
}

/// Carts that each queue a long frame, and later a short one with a long one behind it: their greatest
/// sums are often more than any alignment gives. So many of their patterns make a cart's hyperperiod,
/// by a frame that ranks below all others. The last row is judged; it has a group of its own. What it
/// waits for besides, such as faults, is to be given.
pub fn carts(
    random: &mut Random,
    lengths: &LengthTable,
    groups: u64,
    times: (u64, u64),
    besides: u64,
) -> Vec<Row> {
    let groups = random.groups(groups + 1);
    let long = length(lengths, &[0, 0, 0, 11, 8, 0, 0, 0]);
    let short = length(lengths, &[0, 0, 0, 11, 0, 0, 0, 0]);
    let wait = (groups.len() as u64 - 2) * long + short + besides;
    let period = 4 * (wait + 4 * long) + random.below(1000);
    let mut rows = Vec::new();
    for (cart, group) in (0..).zip(&groups[1..]) {
        let gap = random.between(wait, wait + long + short);
        for (n, payload, offset) in [(0, 8, 0), (1, 0, period / 3), (2, 8, period / 3 + gap)] {
            let identifier = 3 * cart + n;
            rows.push([*group, *group, identifier, 11, payload, period as u32, offset as u32, 500]);
        }
        let times = random.between(times.0, times.1).min(1_000_000 / period);
        if times > 1 {
            let period = (period * times) as u32;
            rows.push([*group, *group, 1000 + cart, 11, 0, period, 0, 500]);
        }
    }
    random.shuffle(&mut rows);
    let own = groups[0];
    if random.percent(50) {
        rows.push([own, own, 400, 11, random.below(4) as u32, period as u32, 7, 500]);
    }
    rows.push([own, own, 500, 11, random.below(9) as u32, period as u32, 0, 500]);
    rows
}

/// Gives nodes and identifiers, lets some frames begin late, and mixes the lines.
fn finish(random: &mut Random, mut rows: Vec<Row>) -> Vec<Row> {
    give_nodes(random, &mut rows);
    for row in &mut rows {
        if random.percent(2) {
            row[OFFSET] = random.pick(&[row[PERIOD], LAST_OFFSET]);
        }
    }
    begin_late(random, &mut rows);
    let range = if random.percent(60) { 70 } else { 2048 };
    let mut used = Vec::new();
    for row in &mut rows {
        let mut frame = (row[KIND], identifier(random, row[KIND], range, &used));
        while used.contains(&frame) {
            frame.1 = identifier(random, row[KIND], range, &used);
        }
        used.push(frame);
        row[IDENTIFIER] = frame.1;
    }
    random.shuffle(&mut rows);
    rows
}

/// Lets no frame, some or all begin late, by a few periods or as many as there can be. Bounds stay.
pub fn begin_late(random: &mut Random, rows: &mut [Row]) {
    let chance = random.pick(&[0, 0, 20, 60, 100]);
    for row in rows {
        let left = (LAST_OFFSET - row[OFFSET]) / row[PERIOD];
        let periods = match random.below(12) {
            0 => random.between(0, left.into()) as u32,
            _ => left.min(random.between(1, 5) as u32),
        };
        if random.percent(chance) {
            row[OFFSET] += row[PERIOD] * periods;
        }
    }
}

/// Gives each group's frames their nodes: the one of the group's number, any other one, or several,
/// as many as there are.
pub fn give_nodes(random: &mut Random, rows: &mut [Row]) {
    if random.percent(40) {
        rows.iter_mut().for_each(|row| row[NODE] = row[GROUP]);
        return;
    }
    let mut groups: Vec<u32> = rows.iter().map(|row| row[GROUP]).collect();
    groups.sort_unstable();
    groups.dedup();
    let mut nodes: Vec<u32> = (1..=NODES).collect();
    random.shuffle(&mut nodes);
    let first = nodes.split_off(nodes.len() - groups.len());
    let mut of_groups: Vec<Vec<u32>> = first.into_iter().map(|node| vec![node]).collect();
    if random.percent(70) {
        for node in nodes {
            let group = random.below(of_groups.len() as u64) as usize;
            of_groups[group].push(node);
        }
    }
    for row in rows {
        let at =
            groups.iter().position(|group| *group == row[GROUP]).expect("a group of the table");
        row[NODE] = random.pick(&of_groups[at]);
    }
}

/// The first 11 bits of an identifier, which short and long frames compare.
pub fn first_bits(kind: u32, identifier: u32) -> u32 {
    if kind == 11 {
        identifier
    } else {
        identifier >> 18
    }
}

/// An identifier: half of the time its first 11 bits are those of a frame that has one already, or
/// one more or less; the other bits of a long one are often the least or greatest.
fn identifier(random: &mut Random, kind: u32, range: u64, used: &[(u32, u32)]) -> u32 {
    let mut first = random.below(range) as u32;
    if !used.is_empty() && random.percent(50) {
        let (kind, identifier) = random.pick(used);
        let beside = first_bits(kind, identifier) + random.pick(&[0, 1, 1, 2]);
        first = beside.clamp(1, 2048) - 1;
    }
    if kind == 11 {
        return first;
    }
    let rest = random.below(1 << 18) as u32;
    first << 18 | random.pick(&[0, 1, (1 << 18) - 1, rest])
}

/// Sets the claim of a row at, beside or away from its bounds.
pub fn set_claim(
    random: &mut Random,
    lengths: &LengthTable,
    rows: &mut [Row],
    row: usize,
    limits: Limits,
) {
    set_claim_under(None, random, lengths, rows, row, limits);
}

/// The same where faults begin at least a gap apart.
pub fn set_claim_under(
    gap: Option<u64>,
    random: &mut Random,
    lengths: &LengthTable,
    rows: &mut [Row],
    row: usize,
    limits: Limits,
) {
    let view = View::under(gap, lengths, rows, row);
    let Some(rough) = view.rough(limits.window) else {
        return;
    };
    let rough = rough.response;
    // The exact bound, unless there are too many scenarios for it.
    let depth = view.deepest_level(limits.scenarios);
    let deepest = view.level(Search::Pruned, depth, limits.window).unwrap_or(rough);
    let claim = match random.below(8) {
        0 => rough,
        1 => rough - 1,
        2 => deepest,
        3 => deepest - 1,
        4 => deepest + 1,
        5 => random.between(deepest, rough),
        6 => random.between(1, deepest),
        _ => random.between(1, 2 * rough),
    };
    rows[row][CLAIM] = claim.clamp(1, 1_000_000) as u32;
}
