//! Cases for a program that reads, checks and writes tables.

use crate::cases::Case;
use crate::lengths::STANDARD;
use crate::random::{clustered, dense, stretched, Random};
use crate::table::{self, Row, FIELDS, IDENTIFIER, KIND, LINE, MOST_LINES, NODES, WIDTHS};

const MOST_WORDS: usize = 600;
const MOST_BYTES: usize = 4096;

/// Number and place of a refusal; both 0 for an accepted table.
type Outcome = (u32, u32);
const GOOD: Outcome = (0, 0);

/// The columns as edits name them; the last is the line feed.
const NAMES: [&str; 9] =
    ["node", "group", "id", "kind", "payload", "period", "offset", "claim", "end"];

/// Good files with some columns changed: lines, outcome, edits one by one.
const FILE_EDITS: &[(usize, Outcome, &str)] = &[
    (64, (1, 1), "1.end= "),
    (64, (1, 33), "33.end=0"),
    (64, (1, 64), "64.end=\r|64.end=\0|64.end=x;17.period=1001"),
    (6, (1, 5), "5.node=x;5.end=x|5.claim=;5.end=x|5.node=17;5.end=x"),
    (6, (1, 5), "6.node=x;5.end=x|5.id=5;5.end=x|5.node=1;5.end=x"),
    (6, (3, 4), "4.claim=x;5.end=x"),
    (6, (4, 4), "4.node=17;5.end=x"),
    (6, (5, 3), "3.id=5;4.end=x|3.id=5;4.node=x"),
    (6, (15, 3), "3.node=1;4.end=x|3.node=1;4.node=x|3.node=1;4.group=x|3.node=1;4.claim=x"),
    (6, (3, 3), "3.node=1;3.claim=x|3.node=1;3.id=x|3.node=1;3.group=x|4.node=1;3.payload=x"),
    (6, (3, 4), "4.group=00|4.group=|4.group= 1 |4.group=x;4.id=x|4.group=x;5.node=17"),
    (6, (3, 4), "4.group=x;4.claim=0|4.group=17;4.node=x|4.group=-1|4.group=01"),
    (6, (4, 4), "4.group=17;4.id=x|4.group=0;4.claim=x|4.group=999|4.node=17;4.group=x"),
    (64, (3, 1), "1.node=x|1.claim=x;2.node=17"),
    (64, (3, 31), "31.period=\n11|31.id=x;33.id=5"),
    (64, (3, 64), "64.node=1 1|64.claim=x;17.period=1001"),
    (64, (4, 63), "63.node=17;64.node=x"),
    (3, (3, 2), "2.id=0000000005|2.id=999999999a|2.id=9999999999;2.kind=x"),
    (3, (3, 2), "2.claim=x;3.id=5|2.claim=+1|3.id=9999999999;2.claim=x"),
    (3, (3, 3), "3.id=5;3.claim=x"),
    (3, (4, 2), "2.id=9999999999;2.kind=30|2.id=9999999999;2.kind=11"),
    (3, (4, 2), "2.id=9999999999;2.payload=x|2.id=4294967302"),
    (3, (4, 3), "3.id=4294967301|3.id=4294967296|3.id=4294967295|3.id=8589934592"),
    (3, (4, 1), "1.period=99999999;1.offset=99999998|1.offset=99999998|1.offset=1000001;1.claim=x"),
];

/// The same for edits that rows in memory can hold as well.
const ROW_EDITS: &[(usize, Outcome, &str)] = &[
    (3, GOOD, "2.node=1|2.node=16|1.id=0|1.id=2047|2.id=0|2.id=536870911"),
    (3, GOOD, "2.group=1|2.group=16|1.group=1;2.group=16;3.group=1|1.group=9;2.group=9;3.group=9"),
    (3, GOOD, "3.kind=11|3.kind=29|2.payload=0|2.payload=8|2.claim=1|2.claim=1000000"),
    (3, GOOD, "3.period=1;3.offset=0|3.period=1000000|2.offset=0|2.offset=999"),
    (3, GOOD, "2.offset=1000|2.offset=1001|2.offset=999999|2.offset=1000000|1.offset=4000"),
    (
        3,
        GOOD,
        "3.period=1;3.offset=1|3.period=1;3.offset=1000000|3.period=1000000;3.offset=1000000",
    ),
    (3, GOOD, "3.period=1000000;3.offset=999999|2.id=5"),
    (3, (7, 16), "2.period=1;2.offset=0|2.period=1000000|1.period=1000000;1.offset=999999"),
    (3, (4, 1), "1.id=2048|1.id=536870911"),
    (3, (4, 2), "2.node=0|2.node=17|2.id=536870912|2.payload=9|2.claim=0|2.claim=1000001"),
    (3, (4, 2), "2.group=0|2.group=17|2.group=0;3.id=5|2.group=17;3.node=1"),
    (
        3,
        (4, 2),
        "2.period=0;2.offset=0|2.period=0|2.period=1000001|2.offset=1000001|2.offset=99999999",
    ),
    (3, (4, 2), "2.claim=0;3.id=5"),
    (3, (4, 3), "3.kind=0|3.kind=10|3.kind=12|3.kind=28|3.kind=30|3.id=5;3.claim=0"),
    (3, (4, 3), "3.node=1;3.claim=0|3.node=1;3.kind=12|3.node=1;3.payload=9|3.node=1;3.group=17"),
    (64, (4, 1), "1.claim=0;64.node=0"),
    (64, (4, 64), "64.node=17|64.group=17|64.claim=0;17.period=1001|64.node=1;64.claim=0"),
    (64, (5, 64), "64.id=6|64.kind=11;64.id=5|64.id=6;17.period=1001|64.id=6;64.group=1"),
    (64, (5, 2), "2.kind=11;2.id=5|2.kind=11;2.id=5;3.id=5"),
    (6, (5, 3), "3.id=5;5.id=5|3.id=5;4.node=0|4.id=6;3.id=5|3.id=5;3.node=1|3.id=5;4.node=1"),
    (6, (15, 3), "3.node=1|3.node=2|3.node=1;5.node=1|3.node=1;4.node=0|3.node=1;4.id=6"),
    (6, (15, 3), "3.node=1;4.claim=0|3.node=1;4.group=17|3.node=1;5.id=5"),
    (6, (15, 2), "2.node=1;2.group=15|2.node=1;2.group=1;3.id=5|2.node=1;2.group=15;3.node=1"),
    (6, (4, 2), "3.node=1;2.claim=0|3.node=1;2.group=0"),
    (6, (5, 4), "5.node=1;4.id=6|4.node=1;4.id=6"),
    (64, (15, 17), "17.group=1|17.group=15;18.group=1|1.group=1|17.node=3;18.period=1001"),
    (
        64,
        (15, 64),
        "64.group=1|64.group=16|64.node=1|64.node=1;17.period=1001|64.group=1;18.period=999",
    ),
    (64, (6, 16), "17.period=1001|18.period=1001|1.period=1001;2.period=999"),
    (64, (7, 16), "18.period=999|17.period=999"),
    (
        64,
        (6, 9),
        "64.period=1001|63.period=1001|64.period=1001;1.period=999|1.period=1001;64.period=1001",
    ),
    (64, (7, 9), "64.period=999;17.period=1001"),
];

/// Groups with the periods of their frames, in table order.
type Periods<'a> = &'a [(u32, &'a [u32])];
const PATTERNS: &[(Periods, Outcome)] = &[
    (&[(1, &[1000, 1001])], (6, 1)),
    (&[(1, &[999, 1000])], (7, 1)),
    (&[(1, &[1, 255])], GOOD),
    (&[(1, &[1, 256])], (7, 1)),
    (&[(2, &[1_000_000, 500_000])], GOOD),
    (&[(2, &[1_000_000, 3906, 1])], (6, 2)),
    (&[(2, &[1_000_000, 3907])], (6, 2)),
    (&[(16, &[1_000_000, 4000, 200_000])], GOOD),
    (&[(16, &[1_000_000, 4000, 200_000, 1_000_000])], (7, 16)),
    (&[(16, &[101, 9901])], (6, 16)),
    (&[(16, &[64, 15_625])], (7, 16)),
    (&[(3, &[65_536, 65_537])], (6, 3)),
    (&[(3, &[999_983, 999_979, 999_961, 999_959])], (6, 3)),
    (&[(4, &[1000, 1001, 1])], (6, 4)),
    (&[(1, &[999, 1000]), (2, &[1000, 1001])], (7, 1)),
    (&[(2, &[1000, 1001]), (1, &[999, 1000])], (7, 1)),
    (&[(1, &[1000, 1001]), (2, &[999, 1000])], (6, 1)),
    (&[(2, &[999, 1000]), (1, &[1000, 1001])], (6, 1)),
    (&[(16, &[1000, 1001]), (15, &[999, 1000])], (7, 15)),
    (&[(9, &[250; 59]), (9, &[200; 4]), (10, &[1])], GOOD),
    (&[(9, &[250; 63]), (9, &[200])], (7, 9)),
];

/// Nodes, groups and periods of frames, in table order.
type Parts<'a> = &'a [(u32, u32, u32)];
const PARTS: &[(Parts, Outcome)] = &[
    // Periods that do not go together: in one group, and in two.
    (&[(1, 3, 1000), (2, 3, 1001)], (6, 3)),
    (&[(1, 3, 1000), (2, 4, 1001)], GOOD),
    (&[(1, 3, 999), (2, 3, 1000)], (7, 3)),
    (&[(1, 3, 999), (2, 4, 1000)], GOOD),
    (&[(1, 16, 1), (2, 16, 255)], GOOD),
    (&[(1, 16, 1), (2, 16, 256)], (7, 16)),
    // The group's number, and not a node's.
    (&[(9, 2, 1000), (9, 2, 1001), (1, 7, 1000), (1, 7, 1001)], (6, 2)),
    (&[(1, 7, 1000), (1, 7, 1001), (9, 2, 999), (9, 2, 1000)], (7, 2)),
    (&[(1, 7, 999), (1, 7, 1000), (9, 2, 1000), (9, 2, 1001)], (6, 2)),
    (&[(16, 1, 101), (15, 1, 9901), (14, 2, 1), (13, 2, 256)], (6, 1)),
    // Each node within the limits, the group not.
    (&[(5, 6, 100), (5, 6, 100), (6, 6, 13_000), (6, 6, 26_000)], (7, 6)),
    (&[(5, 6, 100), (5, 6, 100), (6, 5, 13_000), (6, 5, 26_000)], GOOD),
    // A second group comes before patterns.
    (&[(1, 3, 1000), (1, 3, 1001), (2, 3, 1), (2, 4, 1)], (15, 4)),
    (&[(1, 1, 1), (1, 2, 256), (1, 3, 1)], (15, 2)),
];

/// Document 01's whole case, groups as nodes.
pub const WHOLE_CASE: [Row; 4] = [
    [1, 1, 16, 11, 8, 1000, 0, 300],
    [1, 1, 32, 11, 0, 1000, 200, 189],
    [1, 1, 48, 11, 8, 1000, 300, 198],
    [2, 2, 64, 11, 1, 1000, 0, 200],
];

pub fn all() -> Vec<Case> {
    let mut cases = Cases { list: Vec::new() };
    cases.lengths();
    cases.edited_tables();
    cases.broken_columns();
    cases.two_columns();
    cases.patterns();
    cases.room();
    cases.room_comes_last();
    cases.round_trips();
    cases.random_tables();
    cases.list
}

/// Nodes 1, 2, .., 16, 1, ..; two a group, the first two in group 16, the last two in group 9; kinds
/// 11 and 29 by turns; identifiers from 5.
pub fn good_rows(lines: usize) -> Vec<Row> {
    let row = |line: u32| {
        let kind = if line % 2 == 0 { 11 } else { 29 };
        let node = line % NODES;
        [node + 1, 16 - node / 2, line + 5, kind, line % 9, 1000, line * 10, 400 + line]
    };
    (0..lines as u32).map(row).collect()
}

fn good_file(lines: usize) -> Vec<u8> {
    table::file_of(&good_rows(lines))
}

/// Edits such as "2.kind=30;3.node=x" as line from 0, column and text.
fn edits(text: &str) -> impl Iterator<Item = (usize, usize, &str)> {
    text.split(';').map(|edit| {
        let (at, value) = edit.split_once('=').expect("a value");
        let (line, name) = at.split_once('.').expect("a column");
        let column = NAMES.iter().position(|known| *known == name);
        let line: usize = line.parse().expect("a line");
        (line - 1, column.expect("a known column"), value)
    })
}

/// A good file with columns overwritten, right-justified.
fn edited_file(lines: usize, text: &str) -> Vec<u8> {
    let mut file = good_file(lines);
    for (line, column, value) in edits(text) {
        let start = line * LINE + WIDTHS[..column].iter().sum::<usize>();
        let width = WIDTHS.get(column).copied().unwrap_or(1);
        let value: Vec<u8> = value.chars().map(|sign| sign as u8).collect();
        let field = &mut file[start..start + width];
        field.fill(b' ');
        field[width - value.len()..].copy_from_slice(&value);
    }
    file
}

pub fn edited_rows(lines: usize, text: &str) -> Vec<Row> {
    let mut rows = good_rows(lines);
    for (line, column, value) in edits(text) {
        rows[line][column] = value.parse().expect("a value in 32 bits");
    }
    rows
}

/// Rows of groups, each of the node with its number.
pub fn pattern_rows(groups: Periods) -> Vec<Row> {
    let parts = |(group, periods): &(u32, &[u32])| {
        let part = |period: &u32| (*group, *group, *period);
        periods.iter().map(part).collect::<Vec<_>>()
    };
    part_rows(&groups.iter().flat_map(parts).collect::<Vec<_>>())
}

pub fn part_rows(parts: Parts) -> Vec<Row> {
    let row = |(line, (node, group, period)): (u32, &(u32, u32, u32))| {
        [*node, *group, line, 11, 0, *period, 0, 500]
    };
    (0..).zip(parts).map(row).collect()
}

struct Cases {
    list: Vec<Case>,
}

impl Cases {
    /// A case whose outcome was worked out by hand.
    fn expect(&mut self, case: Case, outcome: Outcome) {
        let found = case.of_table().0;
        let found = found.map_or_else(|refusal| (refusal.number, refusal.place), |_| GOOD);
        assert_eq!(found, outcome, "{} case {}", case.letter, self.list.len());
        self.list.push(case);
    }

    fn read(&mut self, payload: Vec<u8>, area: usize, outcome: Outcome) {
        self.expect(Case { letter: 'R', number: area, payload }, outcome);
    }

    fn file(&mut self, file: Vec<u8>, outcome: Outcome) {
        self.read(file, MOST_LINES * FIELDS, outcome);
    }

    fn checked(&mut self, words: &[u32], outcome: Outcome) {
        self.expect(Case::of_words('C', 0, words), outcome);
    }

    fn written(&mut self, words: &[u32], area: usize, outcome: Outcome) {
        self.expect(Case::of_words('W', area, words), outcome);
    }

    /// Rows in memory, written or only checked.
    fn rows(&mut self, rows: &[Row], write: bool, outcome: Outcome) {
        if write {
            self.written(&rows.concat(), MOST_BYTES, outcome);
        } else {
            self.checked(&rows.concat(), outcome);
        }
    }

    /// 1 (length), 2 and 10, before anything in the lines.
    fn lengths(&mut self) {
        let many = good_file(1).repeat(96);
        let (full, most) = (MOST_LINES * LINE, 65 * LINE);
        let bytes = [0, 1, 43, 45, 47, 91, 93, full - 1, full + 1, most - 1, most + 1, MOST_BYTES];
        for length in bytes {
            self.file(many[..length].to_vec(), (1, 0));
        }
        self.file(vec![b'x'; LINE + 1], (1, 0));
        self.file(vec![b'x'; 65 * LINE + 1], (1, 0));
        for lines in [65, 66, 89] {
            self.file(many[..lines * LINE].to_vec(), (2, 0));
            self.file(vec![b'x'; lines * LINE], (2, 0));
        }
        self.file(vec![b'x'; LINE], (1, 1));
        self.file(vec![b'\n'; LINE], (3, 1));
        let words = [good_rows(MOST_LINES), good_rows(11)].concat().concat();
        for count in [0, 1, 7, 9, 14, 15, 17, 448 + 7, 511, 513, 519, 520, MOST_WORDS] {
            self.checked(&words[..count], (10, 0));
            self.written(&vec![u32::MAX; count], MOST_BYTES, (10, 0));
        }
        for lines in [1, 2, 63, 64] {
            self.file(good_file(lines), GOOD);
            self.checked(&words[..lines * FIELDS], GOOD);
        }
    }

    fn edited_tables(&mut self) {
        for (lines, outcome, texts) in FILE_EDITS {
            for text in texts.split('|') {
                self.file(edited_file(*lines, text), *outcome);
            }
        }
        for (lines, outcome, texts) in ROW_EDITS {
            for (index, text) in texts.split('|').enumerate() {
                self.file(edited_file(*lines, text), *outcome);
                let rows = edited_rows(*lines, text);
                self.rows(&rows, index % 3 == 2, *outcome);
            }
        }
        for name in &NAMES[..FIELDS] {
            let text = format!("2.{name}={}", u32::MAX);
            self.checked(&edited_rows(3, &text).concat(), (4, 2));
        }
    }

    /// In every column each break of the notation, and digits over the whole width.
    fn broken_columns(&mut self) {
        let broken = ["", "00", "01", "-1", "\t1", "1 ", "1x", "/", ":", "ÿ"];
        for (column, name) in NAMES[..FIELDS].iter().enumerate() {
            for (index, text) in broken.iter().enumerate() {
                let line = (column + index) % 3 + 1;
                let file = edited_file(3, &format!("{line}.{name}={text}"));
                self.file(file, (3, line as u32));
            }
            let nines = "9".repeat(WIDTHS[column]);
            self.file(edited_file(3, &format!("3.{name}={nines}")), (4, 3));
        }
    }

    /// 3 in one column beside 4 in another: the left one, an identifier's 4 at the kind.
    fn two_columns(&mut self) {
        let too_great = ["17", "17", "536870912", "30", "9", "1000001", "1000001", "1000001"];
        for (broken, name) in NAMES[..FIELDS].iter().enumerate() {
            for (outside, value) in too_great.iter().enumerate() {
                if broken == outside {
                    continue;
                }
                let judged = if outside == IDENTIFIER { KIND } else { outside };
                let number = if broken <= judged { 3 } else { 4 };
                let text = format!("2.{name}=x;2.{}={value}", NAMES[outside]);
                self.file(edited_file(3, &text), (number, 2));
            }
        }
    }

    /// 6 and 7 by groups, in files and in memory.
    fn patterns(&mut self) {
        let of_groups = PATTERNS.iter().map(|(groups, outcome)| (pattern_rows(groups), outcome));
        let of_nodes = PARTS.iter().map(|(parts, outcome)| (part_rows(parts), outcome));
        for (index, (rows, outcome)) in of_groups.chain(of_nodes).enumerate() {
            self.rows(&rows, index % 3 == 2, *outcome);
            self.file(table::file_of(&rows), *outcome);
        }
    }

    /// Areas exactly enough, one short, empty and greater.
    fn room(&mut self) {
        for lines in [1, 2, 64] {
            let room = |area: usize, need: usize| if area < need { (8, 0) } else { GOOD };
            let need = lines * FIELDS;
            for area in [0, need - 1, need, need + 1, MOST_WORDS] {
                self.read(good_file(lines), area, room(area, need));
            }
            let need = lines * LINE;
            for area in [0, need - 1, need, need + 1, MOST_BYTES] {
                let words = good_rows(lines).concat();
                self.written(&words, area, room(area, need));
            }
        }
    }

    /// An area too short beside each other refusal.
    fn room_comes_last(&mut self) {
        let edited = ["1.end=x", "1.claim=x", "1.claim=0", "3.id=5", "3.node=1"];
        let outcomes = [(1, 1), (3, 1), (4, 1), (5, 3), (15, 3)];
        for (text, outcome) in edited.into_iter().zip(outcomes) {
            self.read(edited_file(3, text), 3 * FIELDS - 1, outcome);
        }
        self.read(vec![0; 1], 0, (1, 0));
        self.read(good_file(1).repeat(65), 0, (2, 0));
        self.written(&[1; 9], 0, (10, 0));
        for (text, outcome) in [("1.claim=0", (4, 1)), ("3.id=5", (5, 3)), ("3.node=1", (15, 3))] {
            self.written(&edited_rows(3, text).concat(), 3 * LINE - 1, outcome);
        }
        for (groups, outcome) in &PATTERNS[..2] {
            let rows = pattern_rows(groups);
            self.read(table::file_of(&rows), 0, *outcome);
            self.written(&rows.concat(), 2 * LINE - 1, *outcome);
        }
    }

    /// Document 01's whole case and random tables: read, checked and written.
    fn round_trips(&mut self) {
        let mut random = Random::new(11);
        let mut tables: Vec<Vec<Row>> = (0..5).map(|_| random_table(&mut random)).collect();
        tables.push(WHOLE_CASE.to_vec());
        for rows in tables {
            let words = rows.concat();
            self.read(table::file_of(&rows), words.len(), GOOD);
            self.checked(&words, GOOD);
            self.written(&words, rows.len() * LINE, GOOD);
        }
    }

    /// Half of these are damaged at one to three places; some areas are short.
    fn random_tables(&mut self) {
        let mut random = Random::new(12);
        for number in 0..100 {
            let rows = random_table(&mut random);
            let damage = if number % 2 == 1 { random.between(1, 3) } else { 0 };
            let short = random.below(9) / 8;
            let spare = (1 - short) * random.below(40);
            let area = |need: usize| need + spare as usize - short as usize;
            let mut file = table::file_of(&rows);
            let mut words = rows.concat();
            damage_file(&mut random, &mut file, damage);
            damage_words(&mut random, &mut words, damage);
            let number = area(rows.len() * FIELDS);
            self.list.push(match random.below(4) {
                0 | 1 => Case { letter: 'R', number, payload: file },
                2 => Case::of_words('C', 0, &words),
                _ => Case::of_words('W', area(file.len()), &words),
            });
        }
    }
}

fn random_table(random: &mut Random) -> Vec<Row> {
    loop {
        let groups = random.between(1, 16);
        let rows = match random.below(4) {
            0 | 1 => clustered(random, &STANDARD, groups, 5, (50, 900)),
            2 => dense(random, &STANDARD, 16),
            _ => stretched(random, groups, 200, 1000),
        };
        if table::check(&rows.concat()).is_ok() {
            return rows;
        }
    }
}

pub fn damage_file(random: &mut Random, file: &mut [u8], places: u64) {
    for _ in 0..places {
        let at = random.below(file.len() as u64) as usize;
        file[at] = random.pick(b"  00123456789\nx");
    }
}

/// Changes a field, sometimes to that of the line before.
pub fn damage_words(random: &mut Random, words: &mut [u32], places: u64) {
    for _ in 0..places {
        let at = random.below(words.len() as u64) as usize;
        words[at] = match random.below(3) {
            0 if at >= FIELDS => words[at - FIELDS],
            1 => random.below(40) as u32,
            _ => random.below(1_100_000) as u32,
        };
    }
}
