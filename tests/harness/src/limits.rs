//! How often calls stand at a limit of document 01 and are served, or beyond it and are turned back.

use crate::answer::{refusal, Judged};
use crate::call::Call;
use crate::simulate::is_together;
use analyser::bounds::View;
use analyser::judgement::{Search, LIMITS};
use analyser::lengths::{LengthTable, FILE, PAYLOADS, STANDARD};
use analyser::random::first_bits;
use analyser::table::{
    self, Refusal, Row, CLAIM, GROUP, GROUPS, IDENTIFIER, KIND, MOST_LINES, NODE, OFFSET, PAYLOAD,
    PERIOD,
};

/// What is so little beyond a limit is beside it; the next number cannot always be met.
const BESIDE: u64 = 300;

type Test = fn(&Seen) -> bool;

/// Each limit: what is the last within it, and what is beyond and beside it.
const ALL: &[(&str, Test, Test)] = &[
    ("node 1", |s| s.serves(|row| row[NODE] == 1), |s| s.refuses(|row| row[NODE] == 0)),
    ("node 16", |s| s.serves(|row| row[NODE] == 16), |s| s.refuses(|row| row[NODE] == 17)),
    ("group 1", |s| s.serves(|row| row[GROUP] == 1), |s| s.refuses(|row| row[GROUP] == 0)),
    ("group 16", |s| s.serves(|row| row[GROUP] == 16), |s| s.refuses(|row| row[GROUP] == 17)),
    (
        "groups beside nodes",
        |s| s.is_served() && s.rows.iter().any(|row| row[GROUP] != row[NODE]),
        |s| s.is_served() && s.rows.iter().all(|row| row[GROUP] == row[NODE]),
    ),
    (
        "nodes beside groups",
        |s| s.is_served() && is_together(&s.rows),
        |s| s.is_served() && !is_together(&s.rows),
    ),
    ("one group a node", |s| s.serves_again(), |s| s.is_refused(15)),
    (
        "identifier 2047",
        |s| s.serves(|row| row[KIND] == 11 && row[IDENTIFIER] == 2047),
        |s| s.refuses(|row| row[KIND] == 11 && row[IDENTIFIER] == 2048),
    ),
    (
        "identifier 536870911",
        |s| s.serves(|row| row[KIND] == 29 && row[IDENTIFIER] == 536_870_911),
        |s| s.refuses(|row| row[KIND] == 29 && row[IDENTIFIER] == 536_870_912),
    ),
    (
        "kind 11",
        |s| s.serves(|row| row[KIND] == 11),
        |s| s.refuses(|row| row[KIND].abs_diff(11) == 1),
    ),
    (
        "kind 29",
        |s| s.serves(|row| row[KIND] == 29),
        |s| s.refuses(|row| row[KIND].abs_diff(29) == 1),
    ),
    (
        "long ahead of short",
        |s| s.serves_both(|first_bits, short| first_bits + 1 == short),
        |s| s.serves_both(|first_bits, short| first_bits == short),
    ),
    ("payload 8", |s| s.serves(|row| row[PAYLOAD] == 8), |s| s.refuses(|row| row[PAYLOAD] == 9)),
    ("period 1", |s| s.serves(|row| row[PERIOD] == 1), |s| s.refuses(|row| row[PERIOD] == 0)),
    (
        "period 1000000",
        |s| s.serves(|row| row[PERIOD] == 1_000_000),
        |s| s.refuses(|row| row[PERIOD] == 1_000_001),
    ),
    (
        "offset period-1",
        |s| s.serves(|row| row[OFFSET] == row[PERIOD] - 1),
        |s| s.serves(|row| row[OFFSET] == row[PERIOD]),
    ),
    (
        "offset 2*period-1",
        |s| s.serves(|row| row[OFFSET] == 2 * row[PERIOD] - 1),
        |s| s.serves(|row| row[OFFSET] > 2 * row[PERIOD]),
    ),
    (
        "offset 1000000",
        |s| s.serves(|row| row[OFFSET] == 1_000_000),
        |s| s.refuses(|row| row[OFFSET] == 1_000_001),
    ),
    ("claim 1", |s| s.serves(|row| row[CLAIM] == 1), |s| s.refuses(|row| row[CLAIM] == 0)),
    (
        "claim 1000000",
        |s| s.serves(|row| row[CLAIM] == 1_000_000),
        |s| s.refuses(|row| row[CLAIM] == 1_000_001),
    ),
    (
        "lines 64",
        |s| s.is_served() && s.call.lines() == MOST_LINES,
        |s| (s.is_refused(2) || s.is_refused(10)) && s.call.lines() == MOST_LINES + 1,
    ),
    (
        "hyperperiod 1000000",
        |s| s.serves_group(|group| group.hyperperiod == 1_000_000),
        |s| s.refuses_group(6, |group| is_beside(group.hyperperiod, 1_000_000)),
    ),
    (
        "queueings 256",
        |s| s.serves_group(|group| group.queueings == 256),
        |s| s.refuses_group(7, |group| group.queueings == 257),
    ),
    (
        "area of the result",
        |s| s.is_served() && s.call.room().is_some_and(|(size, need)| size == need),
        |s| s.is_refused(8) && s.call.room().is_some_and(|(size, need)| size + 1 == need),
    ),
    (
        "row lines-1",
        |s| s.is_served() && s.call.row().is_some_and(|row| row + 1 == s.call.lines() as u64),
        |s| s.is_refused(9) && s.call.row() == Some(s.call.lines() as u64),
    ),
    ("window 1000000", |s| s.window == Some(LIMITS.window), |s| s.window > Some(LIMITS.window)),
    (
        "scenarios 65536",
        |s| s.scenarios == Some(LIMITS.scenarios),
        |s| s.scenarios.is_some_and(|count| is_beside(count, LIMITS.scenarios)),
    ),
    (
        "level's product 65536",
        |s| s.level.as_ref().is_some_and(|level| level.product == LIMITS.scenarios),
        |s| s.level.as_ref().is_some_and(|level| is_beside(level.next, LIMITS.scenarios)),
    ),
    (
        "claim of a level",
        |s| s.is_judged(4, 0),
        |s| s.level.as_ref().is_some_and(|level| level.is_one_more),
    ),
    (
        "own lengths",
        |s| s.serves_lengths(|lengths| *lengths == STANDARD),
        |s| s.serves_lengths(|lengths| *lengths != STANDARD),
    ),
    (
        "lengths of 92 bytes",
        |s| s.lengths_size() == Some(FILE) && s.serves_lengths(|_| true),
        |s| s.is_refused(13) && s.lengths_size() == Some(FILE + 1),
    ),
    (
        "not of 91",
        |s| s.lengths_size() == Some(FILE) && s.serves_lengths(|_| true),
        |s| s.is_refused(13) && s.lengths_size() == Some(FILE - 1),
    ),
    ("length 47", |s| s.serves_length(47), |s| s.refuses_line(|line| line.contains(&46))),
    ("length 400", |s| s.serves_length(400), |s| s.refuses_line(|line| line.contains(&401))),
    (
        "length as before",
        |s| s.serves_lengths(|lengths| lengths.iter().any(has_equal_neighbours)),
        |s| {
            s.refuses_line(|line| {
                line.windows(2).any(|pair| pair[0].checked_sub(1) == Some(pair[1]))
            })
        },
    ),
    ("claim of rough bound", |s| s.is_judged(1, 0), |s| s.is_judged(12, -1)),
    ("claim of exact bound", |s| s.is_judged(2, 0), |s| s.is_judged(3, -1)),
];

fn has_equal_neighbours(line: &[u32; PAYLOADS]) -> bool {
    line.windows(2).any(|pair| pair[0] == pair[1])
}

fn is_beside(number: u64, limit: u64) -> bool {
    number > limit && number <= limit + BESIDE
}

/// A call, and what it came to.
struct Seen<'a> {
    call: &'a Call,
    rows: Vec<Row>,
    refusal: Option<Refusal>,
    /// Those that were taken.
    lengths: Option<LengthTable>,
    judged: Option<Judged>,
    /// The rough bound's window, unless it is far beyond its limit.
    window: Option<u64>,
    /// The scenario count, where the answer hangs on it.
    scenarios: Option<u64>,
    /// The deepest level, where the answer hangs on it.
    level: Option<Level>,
}

/// The products of the deepest level and of the next one, and whether its bound is one more than the claim.
struct Level {
    product: u64,
    next: u64,
    is_one_more: bool,
}

impl Level {
    fn new(view: &View) -> Level {
        let depth = view.deepest_level(LIMITS.scenarios);
        let bound = view.level(Search::Pruned, depth, LIMITS.window);
        Level {
            product: view.level_product(depth),
            next: view.level_product(depth + 1),
            is_one_more: bound == Some(view.claim() + 1),
        }
    }
}

impl<'a> Seen<'a> {
    fn new(call: &'a Call, answer: i64) -> Seen<'a> {
        let refusal = refusal(answer);
        let judges = call.operation().judges() && refusal.is_none();
        let judged = judges.then(|| Judged::new(answer));
        let rows = call.rows();
        let lengths = call.lengths().and_then(Result::ok);
        let seen = Seen {
            call,
            rows,
            refusal,
            lengths,
            judged,
            window: None,
            scenarios: None,
            level: None,
        };
        match call.row() {
            Some(row) if seen.is_served() || seen.is_refused(11) || seen.is_refused(12) => {
                seen.with_row(row as usize)
            }
            _ => seen,
        }
    }

    /// Looks at the row asked for.
    fn with_row(self, row: usize) -> Seen<'a> {
        let lengths = self.lengths.expect("a row is judged by lengths");
        let view = View::new(&lengths, &self.rows, row);
        let window = view.rough_window(LIMITS.window + BESIDE);
        let verdict = self.judged.as_ref().map(|judged| judged.verdict);
        let hangs_on_count = !self.is_refused(11) && !matches!(verdict, Some(1 | 11));
        let scenarios = hangs_on_count.then(|| view.scenario_count());
        let level = matches!(verdict, Some(4 | 12)).then(|| Level::new(&view));
        Seen { window, scenarios, level, ..self }
    }

    fn is_served(&self) -> bool {
        self.refusal.is_none()
    }

    fn is_refused(&self, number: u32) -> bool {
        self.refusal.is_some_and(|refusal| refusal.number == number)
    }

    fn is_judged(&self, verdict: i64, margin: i64) -> bool {
        let judged = self.judged.as_ref();
        judged.is_some_and(|judged| judged.verdict == verdict && judged.margin == margin)
    }

    /// How many bytes the file of lengths has, where it is a file.
    fn lengths_size(&self) -> Option<usize> {
        match self.call {
            Call::File(file, ..) | Call::ReadLengths(file, ..) => Some(file.len()),
            Call::Rows(..) | Call::WriteLengths(..) => None,
        }
    }

    /// The lengths of a call that is served are such.
    fn serves_lengths(&self, test: impl Fn(&LengthTable) -> bool) -> bool {
        self.is_served() && self.lengths.is_some_and(|lengths| test(&lengths))
    }

    fn serves_length(&self, length: u32) -> bool {
        self.serves_lengths(|lengths| lengths.iter().flatten().any(|other| *other == length))
    }

    /// The line of lengths that is turned back is such a line.
    fn refuses_line(&self, test: fn(&[u32; PAYLOADS]) -> bool) -> bool {
        let Some(Refusal { number: 14, place }) = self.refusal else {
            return false;
        };
        let lengths = self.call.numbers().expect("14 comes behind 13");
        lengths.get(place as usize - 1).is_some_and(test)
    }

    /// An accepted table has such a row.
    fn serves(&self, test: fn(&Row) -> bool) -> bool {
        self.is_served() && self.rows.iter().any(test)
    }

    /// An accepted table has such a long and such a short identifier.
    fn serves_both(&self, test: fn(u32, u32) -> bool) -> bool {
        let of_kind = |kind| self.rows.iter().filter(move |row| row[KIND] == kind);
        let mut longs = of_kind(29).map(|row| first_bits(29, row[IDENTIFIER]));
        self.is_served() && longs.any(|long| of_kind(11).any(|row| test(long, row[IDENTIFIER])))
    }

    /// The line turned back for a value is such a row.
    fn refuses(&self, test: fn(&Row) -> bool) -> bool {
        let Some(Refusal { number: 4, place }) = self.refusal else {
            return false;
        };
        self.rows.get(place as usize - 1).is_some_and(test)
    }

    /// An accepted table has a node on two lines.
    fn serves_again(&self) -> bool {
        let nodes = || self.rows.iter().map(|row| row[NODE]);
        self.is_served() && nodes().any(|node| nodes().filter(|other| *other == node).count() > 1)
    }

    /// An accepted table has such a group.
    fn serves_group(&self, test: fn(Pattern) -> bool) -> bool {
        self.is_served() && (1..=GROUPS).any(|group| test(Pattern::new(&self.rows, group)))
    }

    /// The group turned back is such a group.
    fn refuses_group(&self, number: u32, test: fn(Pattern) -> bool) -> bool {
        let refusal = self.refusal.filter(|refusal| refusal.number == number);
        refusal.is_some_and(|refusal| test(Pattern::new(&self.rows, refusal.place)))
    }
}

struct Pattern {
    hyperperiod: u64,
    queueings: u64,
}

impl Pattern {
    fn new(rows: &[Row], group: u32) -> Pattern {
        let hyperperiod = table::group_hyperperiod(rows, group);
        let of_group = rows.iter().filter(|row| row[GROUP] == group);
        let queueings = of_group.map(|row| hyperperiod / u64::from(row[PERIOD])).sum();
        Pattern { hyperperiod, queueings }
    }
}

/// Counts of calls at each limit, and beyond it.
pub struct Limits {
    counts: Vec<[u64; 2]>,
}

impl Limits {
    pub fn new() -> Limits {
        Limits { counts: vec![[0; 2]; ALL.len()] }
    }

    pub fn add(&mut self, call: &Call, answer: i64) {
        let seen = Seen::new(call, answer);
        for (counts, (_, at, beyond)) in self.counts.iter_mut().zip(ALL) {
            counts[0] += u64::from(at(&seen));
            counts[1] += u64::from(beyond(&seen));
        }
    }

    pub fn print(&self) {
        println!("{:<22}{:>9}{:>9}", "limit", "at", "beyond");
        for ([at, beyond], (name, ..)) in self.counts.iter().zip(ALL) {
            println!("{name:<22}{at:>9}{beyond:>9}");
        }
    }

    /// What did not occur.
    pub fn faults(&self) -> Vec<String> {
        let missed = self.counts.iter().zip(ALL).filter(|(counts, _)| counts.contains(&0));
        missed.map(|(_, (name, ..))| format!("limit {name} was not met from both sides")).collect()
    }
}
