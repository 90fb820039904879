//! Cases for a program that judges rows and gives precise bounds.

use crate::bounds::View;
use crate::cases::Case;
use crate::judgement::LIMITS;
use crate::lengths::{LengthTable, STANDARD};
use crate::random::{carts, clustered, dense, set_claim, stretched, Random};
use crate::table::{self, Row, CLAIM, GROUP, GROUPS, IDENTIFIER, NODE, OFFSET, PERIOD};
use crate::table_cases::{edited_rows, good_rows, part_rows, pattern_rows, WHOLE_CASE};

/// Scenarios times rows of a random table at most.
const MOST_WORK: u64 = 40_000;

/// Tables with a window near 1000000: three lone frames as payload and period;
/// the judged group's period and its frames as payload and offset, the judged one
/// last; the payload of a frame below.
pub type LongWindow<'a> = ([(u32, u32); 3], u32, &'a [(u32, u32)], Option<u32>);
pub const LONG_WINDOWS: &[LongWindow] = &[
    // Window 999999, served.
    ([(8, 231), (3, 273), (1, 625)], 1_000_000, &[(4, 0)], Some(8)),
    // Window 1000004, not served.
    ([(4, 153), (4, 383), (8, 1032)], 700_000, &[(0, 0)], Some(6)),
    // Window 1000000, served.
    ([(6, 200), (6, 409), (0, 383)], 1_000_000, &[(8, 0), (3, 0)], None),
    // Window 1000005, not served.
    ([(3, 228), (7, 325), (7, 516)], 505_000, &[(5, 0), (0, 0)], None),
    // Only the first alignment has a window.
    (FULL, 1_000_000, &[(0, 0), (3, 500_000), (1, 500_000)], None),
    // Only the second alignment has a window.
    (FULL, 1_000_000, &[(0, 500_000), (3, 0), (1, 0)], None),
    // Both alignments have a window.
    (FULL, 1_000_000, &[(0, 0), (8, 500_000)], None),
];
const FULL: [(u32, u32); 3] = [(5, 153), (0, 425), (4, 516)];

/// Every scenario of the last row has a window up to 1000000, the rough bound has none. The last
/// row ties with the one before in the first 11 bits, which gives it the last rank.
pub const NO_ROUGH_WINDOW: [Row; 7] = [
    [1, 1, 1, 11, 5, 269, 0, 500],
    [3, 3, 2, 11, 8, 615, 0, 500],
    [2, 2, 3, 11, 0, 808, 0, 500],
    [2, 2, 4, 11, 8, 808, 123, 500],
    [2, 2, 5, 11, 7, 808, 297, 500],
    [4, 4, 6, 11, 7, 1_000_000, 0, 500],
    [4, 4, 6 << 18, 29, 8, 1_000_000, 0, 1_000_000],
];

/// A short identifier, a long one, and the kind that goes first. In most the long one's first 11
/// bits are the short one, one less or one more.
const RANKS: &[(u32, u32, u32)] = &[
    (0, 0, 11),
    (0, 536_870_911, 11),
    (1, 262_143, 29),
    (1, 262_144, 11),
    (5, 5, 29),
    (5, 1_310_719, 29),
    (5, 1_310_720, 11),
    (5, 1_310_721, 11),
    (5, 1_572_863, 11),
    (5, 1_572_864, 11),
    (2047, 536_608_767, 29),
    (2047, 536_608_768, 11),
    (2047, 536_870_911, 11),
];

pub fn all() -> Vec<Case> {
    let mut cases = Cases { list: Vec::new() };
    cases.document_examples();
    cases.groups();
    cases.late_starters();
    cases.ranks();
    cases.refusals();
    cases.long_windows();
    cases.scenario_counts();
    cases.random_tables();
    cases.list
}

/// The rows of such a table, and which of them is judged.
pub fn long_window_table((lone, period, judged, below): &LongWindow) -> (Vec<Row>, usize) {
    let mut rows = Vec::new();
    for (payload, period) in lone {
        let group = rows.len() as u32 + 1;
        rows.push([group, group, 0, 11, *payload, *period, 0, 500]);
    }
    for (payload, offset) in *judged {
        rows.push([4, 4, 0, 11, *payload, *period, *offset, 500]);
    }
    let last = rows.len() - 1;
    rows.extend(below.map(|payload| [5, 5, 0, 11, payload, 1_000_000, 0, 500]));
    (0..).zip(&mut rows).for_each(|(line, row)| row[IDENTIFIER] = line);
    (rows, last)
}

/// Groups with so many alignments each, of one node: a short frame, and a long one that comes
/// a gap later and, from three alignments on, less often.
pub fn counted_table(alignments: &[u32], payload: u32, gap: u32) -> Vec<Row> {
    let mut rows = Vec::new();
    for (group, count) in (1..).zip(alignments) {
        let node = 17 - group;
        let period = 3910 - 3 * group;
        let offset = 7 * group;
        rows.push([node, group, 2 * group, 11, 0, period, offset, 500]);
        let period = period * (count - 1);
        rows.push([node, group, 2 * group + 1, 11, payload, period, offset + gap, 500]);
    }
    rows
}

/// The same rows, of nodes that all are of other groups.
fn regrouped(rows: &[Row], group: impl Fn(u32) -> u32) -> Vec<Row> {
    let mut rows = rows.to_vec();
    rows.iter_mut().for_each(|row| row[GROUP] = group(row[NODE]));
    rows
}

struct Cases {
    list: Vec<Case>,
}

impl Cases {
    fn add(&mut self, letter: char, row: usize, rows: &[Row]) {
        self.list.push(Case::of_words(letter, row, &rows.concat()));
    }

    fn both(&mut self, row: usize, rows: &[Row]) {
        self.add('J', row, rows);
        self.add('P', row, rows);
    }

    /// The precise bound, and judgements of claims at and beside both bounds.
    fn around(&mut self, row: usize, rows: &[Row]) {
        let view = View::new(&STANDARD, rows, row);
        let mut claims = vec![1, 1_000_000];
        if let Some(rough) = view.rough(LIMITS.window) {
            claims.extend([rough.response, rough.response - 1]);
            if view.scenario_count() <= LIMITS.scenarios {
                let exact = view.exact_pruned(LIMITS.window).expect("a window");
                claims.extend([exact, exact - 1, exact + 1]);
            }
        }
        self.add('P', row, rows);
        claims.sort_unstable();
        claims.dedup();
        for claim in claims {
            let mut rows = rows.to_vec();
            rows[row][CLAIM] = claim as u32;
            self.add('J', row, &rows);
        }
    }

    fn document_examples(&mut self) {
        for row in 0..WHOLE_CASE.len() {
            self.add('J', row, &WHOLE_CASE);
            self.around(row, &WHOLE_CASE);
        }
        self.around(0, &[[1, 1, 5, 11, 8, 135, 0, 500]]);
        self.around(0, &[[1, 1, 5, 11, 8, 134, 0, 500]]);
    }

    /// Two nodes in one group, and the same in two; all nodes in one; one group of another number.
    fn groups(&mut self) {
        let rows = |group| {
            let first = [1, 1, 1, 11, 8, 1000, 0, 500];
            [first, [2, group, 2, 11, 8, 1000, 135, 500], [3, 3, 3, 11, 0, 1000, 0, 500]]
        };
        // Frame 1 waits for frame 2 or, in another schedule, for frame 3, which began a tick before.
        // Together frame 2 waits no more than frame 1 was late, apart for all of it as well.
        let exact = |rows: &[Row]| {
            [0, 1, 2].map(|row| View::new(&STANDARD, rows, row).exact(LIMITS.window))
        };
        let together = exact(&rows(1)).map(|worst| worst.expect("a window").response);
        let apart = exact(&rows(2)).map(|worst| worst.expect("a window").response);
        assert_eq!(together, [134 + 135, 54 + 135, 270 + 55]);
        assert_eq!(apart, [134 + 135, 54 + 135 + 135, 270 + 55]);
        for rows in [rows(1), rows(2)] {
            (0..3).for_each(|row| self.around(row, &rows));
        }
        let mut random = Random::new(41);
        for _ in 0..20 {
            let rows = close(&mut random, &STANDARD);
            let row = random.below(rows.len() as u64) as usize;
            let groups: [fn(u32) -> u32; 3] = [|_| 1, |node| node, |node| GROUPS - node / 2];
            for group in groups {
                let rows = regrouped(&rows, group);
                let accepted = table::check(&rows.concat()).is_ok();
                if accepted && cheap(&View::new(&STANDARD, &rows, row), rows.len()) {
                    self.both(row, &rows);
                }
            }
        }
    }

    /// Document 01's whole case with frames that begin late: the bounds are the same.
    fn late_starters(&mut self) {
        for (line, offset) in [(0, 1000), (1, 4200), (2, 1_000_000), (3, 1000), (3, 999_000)] {
            let mut rows = WHOLE_CASE;
            rows[line][OFFSET] = offset;
            for row in 0..rows.len() {
                self.add('J', row, &rows);
                self.around(row, &rows);
            }
        }
        // A frame whose offset is beyond its period, and one that is not, in a group.
        let rows = [[1, 1, 1, 11, 8, 1000, 4300, 500], [1, 1, 2, 11, 0, 1000, 300, 500]];
        let exact =
            |row| View::new(&STANDARD, &rows, row).exact(LIMITS.window).expect("a window").response;
        assert_eq!([0, 1].map(exact), [54 + 135, 135 + 55]);
        (0..2).for_each(|row| self.around(row, &rows));
        self.around(0, &[[1, 1, 5, 11, 8, 135, 1_000_000, 500]]);
        self.around(0, &[[1, 1, 5, 11, 8, 134, 1_000_000, 500]]);
    }

    /// Of a short and a long frame the first waits for one that began a tick before, the other for
    /// all of the first.
    fn ranks(&mut self) {
        for (short, long, first) in RANKS {
            let rows = [[1, 1, *short, 11, 8, 1000, 0, 500], [2, 2, *long, 29, 8, 1000, 0, 500]];
            let exact = |row| {
                View::new(&STANDARD, &rows, row).exact(LIMITS.window).expect("a window").response
            };
            let wanted = if *first == 11 { [159 + 135, 135 + 160] } else { [160 + 135, 134 + 160] };
            assert_eq!([0, 1].map(exact), wanted);
            self.around(0, &rows);
            self.around(1, &rows);
        }
    }

    /// 10, 4, 5, 15, 6, 7 and 9, the last behind all others.
    fn refusals(&mut self) {
        let words = [good_rows(64), good_rows(1)].concat().concat();
        for count in [0, 7, 9, 448 + 7, 511, 513, 520] {
            for (letter, row) in [('J', 0), ('P', 0), ('J', 90), ('P', 99_999_999)] {
                self.list.push(Case::of_words(letter, row, &words[..count]));
            }
        }
        let edits = ["2.node=17", "3.offset=1000001", "1.claim=0", "3.id=5", "3.id=5;2.kind=12"];
        let mut refused: Vec<Vec<Row>> = edits.map(|text| edited_rows(3, text)).to_vec();
        let edits =
            ["2.group=0", "3.group=17", "3.node=1", "3.node=1;3.id=5", "3.node=1;3.claim=0"];
        refused.extend(edits.map(|text| edited_rows(3, text)));
        refused.push(part_rows(&[(1, 3, 1000), (2, 3, 1001)]));
        refused.push(part_rows(&[(9, 2, 999), (9, 2, 1000), (1, 7, 1000), (1, 7, 1001)]));
        refused.push(part_rows(&[(1, 3, 1000), (1, 3, 1001), (2, 3, 1), (2, 4, 1)]));
        refused.push(pattern_rows(&[(1, &[1000, 1001])]));
        refused.push(pattern_rows(&[(2, &[1000, 1001]), (1, &[999, 1000])]));
        refused.push(pattern_rows(&[(9, &[250; 63]), (9, &[200])]));
        for rows in refused {
            self.both(1, &rows);
            self.both(rows.len(), &rows);
        }
        for lines in [1, 3, 64] {
            for row in [lines, lines + 1, 65_536, 99_999_999] {
                self.both(row, &good_rows(lines));
            }
            self.both(lines - 1, &good_rows(lines));
        }
    }

    fn long_windows(&mut self) {
        for spec in LONG_WINDOWS {
            let (rows, judged) = long_window_table(spec);
            self.around(judged, &rows);
        }
        self.around(6, &NO_ROUGH_WINDOW);
        let served = [&NO_ROUGH_WINDOW[..5], &NO_ROUGH_WINDOW[6..]].concat();
        self.around(5, &served);
    }

    /// Scenario counts at, below and above 65536.
    fn scenario_counts(&mut self) {
        for counts in [&[256, 256][..], &[217, 151, 2], &[226, 145, 2], &[256, 256, 2]] {
            let rows = counted_table(counts, 8, 90);
            self.around(rows.len() - 1, &rows);
        }
        // Two frames queued at once give one alignment.
        let mut rows = counted_table(&[217, 151, 2], 8, 90);
        rows.push([1, 3, 1, 11, 0, rows[4][PERIOD], rows[4][OFFSET], 500]);
        self.around(5, &rows);
        // Frames below count in the hyperperiod; equal distances stay apart.
        for last in [2, 3] {
            let mut rows = counted_table(&[256, 256, last], 8, 90);
            rows.iter_mut().skip(1).step_by(2).for_each(|row| row[IDENTIFIER] += 100);
            self.around(4, &rows);
        }
        let mut twos = counted_table(&[2; 16], 3, 1000);
        self.add('P', 31, &twos);
        let exact = View::new(&STANDARD, &twos, 31).exact_pruned(LIMITS.window);
        twos[31][CLAIM] = exact.expect("a window") as u32;
        self.add('J', 31, &twos);
        let mut over = [2; 16];
        over[7] = 3;
        self.around(31, &counted_table(&over, 3, 1000));
    }

    fn random_tables(&mut self) {
        let (j, p) = ('J', 'P');
        self.fill(21, close, any, &[(j, 1, 50), (j, 3, 40), (p, 0, 30)]);
        self.fill(22, close, apart, &[(j, 1, 20), (j, 2, 80), (j, 3, 40), (p, 0, 20)]);
        self.fill(23, full, later_q, &[(j, 1, 15), (j, 3, 15), (p, 0, 10)]);
        self.fill(24, full, apart, &[(j, 2, 30), (j, 3, 15), (p, 0, 5)]);
        self.fill(25, filled, later_q, &[(j, 1, 20), (j, 3, 20), (p, 0, 10)]);
        self.fill(26, filled, any, &[(j, 1, 15), (j, 3, 15), (j, 11, 25), (p, 11, 15)]);
        self.fill(27, wide, any, &[(j, 1, 15), (j, 3, 15), (j, 12, 35), (p, 12, 10)]);
        self.fill(28, wide, apart, &[(j, 2, 15), (j, 3, 5), (p, 0, 5)]);
        self.fill(29, long, any, &[(j, 1, 10), (j, 3, 10), (j, 12, 15), (p, 12, 10)]);
        self.fill(30, short, any, &[(j, 11, 20), (p, 11, 5)]);
        self.fill(31, three_carts, lowest, &[(j, 1, 10), (j, 4, 40), (j, 12, 20), (p, 12, 5)]);
    }

    /// Adds rows of random tables until each outcome has its number of cases.
    fn fill(
        &mut self,
        seed: u64,
        draw: fn(&mut Random, &LengthTable) -> Vec<Row>,
        keep: fn(&View) -> bool,
        wanted: &[(char, u32, usize)],
    ) {
        let mut random = Random::new(seed);
        let mut wanted = wanted.to_vec();
        while wanted.iter().any(|(_, _, left)| *left > 0) {
            let mut rows = draw(&mut random, &STANDARD);
            if table::check(&rows.concat()).is_err() {
                continue;
            }
            let row = random.below(rows.len() as u64) as usize;
            let view = View::new(&STANDARD, &rows, row);
            if !cheap(&view, rows.len()) || !keep(&view) {
                continue;
            }
            set_claim(&mut random, &STANDARD, &mut rows, row, LIMITS);
            for (letter, number, left) in wanted.iter_mut().filter(|(_, _, left)| *left > 0) {
                let case = Case::of_words(*letter, row, &rows.concat());
                let answer = case.of_row();
                if answer.map_or_else(|refusal| refusal.number, |(verdict, _)| verdict) == *number {
                    self.list.push(case);
                    *left -= 1;
                }
            }
        }
    }
}

/// Few scenarios to enumerate, or too many for any.
fn cheap(view: &View, rows: usize) -> bool {
    let count = view.scenario_count();
    count > LIMITS.scenarios || count * rows as u64 <= MOST_WORK
}

fn any(_: &View) -> bool {
    true
}

/// The exact bound is below the rough one.
pub fn apart(view: &View) -> bool {
    let rough = view.rough(LIMITS.window).map(|worst| worst.response);
    let decided = rough.is_some() && view.scenario_count() <= LIMITS.scenarios;
    decided && rough != view.exact_pruned(LIMITS.window)
}

/// Only a q above 1 gives the exact bound.
fn later_q(view: &View) -> bool {
    let decided = view.scenario_count() <= LIMITS.scenarios;
    decided && view.exact(LIMITS.window).is_some_and(|worst| worst.q > 1)
}

pub fn close(random: &mut Random, lengths: &LengthTable) -> Vec<Row> {
    let groups = random.between(2, 4);
    clustered(random, lengths, groups, 5, (110, 600))
}

pub fn full(random: &mut Random, lengths: &LengthTable) -> Vec<Row> {
    clustered(random, lengths, 2, 5, (86, 100))
}

pub fn filled(random: &mut Random, lengths: &LengthTable) -> Vec<Row> {
    dense(random, lengths, 8)
}

pub fn wide(random: &mut Random, lengths: &LengthTable) -> Vec<Row> {
    let groups = random.between(10, 16);
    clustered(random, lengths, groups, 6, (105, 400))
}

pub fn long(random: &mut Random, _: &LengthTable) -> Vec<Row> {
    stretched(random, 3, 120, 800)
}

/// Whether a row is that of the carts which is judged.
fn lowest(view: &View) -> bool {
    view.identifier() == 500
}

/// Carts of many alignments, so that the levels end before the last ones.
pub fn three_carts(random: &mut Random, lengths: &LengthTable) -> Vec<Row> {
    let groups = random.between(3, 4);
    carts(random, lengths, groups, (8, 30), 0)
}

pub fn short(random: &mut Random, _: &LengthTable) -> Vec<Row> {
    stretched(random, 3, 6, 1)
}
