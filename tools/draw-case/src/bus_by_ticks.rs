//! The bars of pictures against the bus rule, which the analyser follows tick by tick.

use crate::drawn;
use crate::schedule::{Case, Role, Schedule, GROUPS};
use crate::table::frames;
use analyser::bounds::View;
use analyser::judgement::{Search, LIMITS};
use analyser::lengths::{self, length, LengthTable, STANDARD};
use analyser::literal::goes_ahead;
use analyser::literal_bus;
use analyser::random::{clustered, dense, own_lengths, Random};
use analyser::simulator::{Starts, Transmission};
use analyser::table::{self, Row, CLAIM, GROUP, OFFSET, PERIOD};
use analyser::table_cases::WHOLE_CASE;

/// Tables with longer windows or more scenarios are not followed.
const LONGEST: u64 = 10_000;
const MOST_SCENARIOS: u64 = 300;

/// A row of a table whose claim is too small, the case that shows it, and the response in that case.
struct Late {
    lengths: LengthTable,
    rows: Vec<Row>,
    row: usize,
    case: Case,
    response: i64,
}

/// The case of a row with a claim below some response.
fn draw(random: &mut Random) -> Late {
    loop {
        let lengths = if random.percent(50) { STANDARD } else { own_lengths(random) };
        let groups = random.between(1, 4);
        let rows = match random.below(2) {
            0 => clustered(random, &lengths, groups, 5, (90, 300)),
            _ => dense(random, &lengths, 8),
        };
        let row = if random.percent(50) {
            lowest(&rows)
        } else {
            random.below(rows.len() as u64) as usize
        };
        if table::check(&rows.concat()).is_ok() {
            if let Some(late) = late(random, lengths, rows, row) {
                return late;
            }
        }
    }
}

fn lowest(rows: &[Row]) -> usize {
    let below = |row: &usize| rows.iter().all(|other| !goes_ahead(&rows[*row], other));
    (0..rows.len()).find(below).expect("a row")
}

fn late(random: &mut Random, lengths: LengthTable, mut rows: Vec<Row>, row: usize) -> Option<Late> {
    let view = View::new(&lengths, &rows, row);
    view.rough_window(LONGEST).filter(|_| view.scenario_count() <= MOST_SCENARIOS)?;
    let responses = |number| view.responses_in(number, LONGEST).expect("a window");
    let some = responses(random.below(view.scenario_count()));
    let greatest = *some.iter().max()?;
    let claim = if random.percent(50) { greatest } else { random.pick(&some) } - 1;
    let found = view.first_case(Search::Plain, claim, LIMITS.window).expect("a case");
    let at = |number: &u64| view.instants(*number) == found.alignments;
    let number = (0..view.scenario_count()).find(at).expect("the scenario");
    let response = responses(number)[found.q as usize - 1] as i64;
    let alignments = found.alignments.try_into().expect("sixteen groups");
    rows[row][CLAIM] = claim as u32;
    Some(Late { lengths, rows, row, case: Case { alignments, instance: found.q }, response })
}

impl Late {
    fn schedule(&self) -> Schedule {
        let files = (lengths::file_of(&self.lengths), table::file_of(&self.rows));
        let frames = frames(&files.0, &files.1).expect("an accepted table");
        Schedule::new(&frames, self.row, &self.case)
    }

    /// The frames ahead by rank, the judged one last; and the longest one below.
    fn ahead_and_longest_below(&self) -> (Vec<Row>, Option<Row>) {
        let judged = &self.rows[self.row];
        let (below, mut ahead): (Vec<Row>, Vec<Row>) =
            self.rows.iter().partition(|row| goes_ahead(judged, row));
        ahead.sort_by(|one, two| goes_ahead(two, one).cmp(&goes_ahead(one, two)));
        (ahead, below.into_iter().max_by_key(|row| length(&self.lengths, row)))
    }

    /// Whether a frame is queued at a tick of the window: its group's time is then the alignment and so
    /// much more.
    fn is_queued(&self, row: &Row, tick: i64) -> bool {
        let time = self.case.alignments[row[GROUP] as usize - 1] + tick as u64;
        time % u64::from(row[PERIOD]) == u64::from(row[OFFSET] % row[PERIOD])
    }

    /// What the bus sends of the frames ahead, and then of the one below, where the window starts at tick
    /// 1: all groups of frames ahead start then, each frame when it is first queued in the window. A frame
    /// below is queued at tick 0, alone, and goes.
    fn sent(&self, until: i64) -> Vec<Transmission> {
        let (mut rows, below) = self.ahead_and_longest_below();
        for row in &mut rows {
            let first = (0..).find(|tick| self.is_queued(row, *tick)).expect("a queueing");
            (row[GROUP], row[OFFSET]) = (1, first as u32);
        }
        rows.extend(below.map(|mut row| {
            (row[GROUP], row[PERIOD], row[OFFSET]) = (2, 1_000_000, 0);
            row
        }));
        let mut starts: Starts = [0; GROUPS];
        starts[0] = 1;
        literal_bus::schedule(&rows, &starts, 1 + until as u64, &mut |row| {
            length(&self.lengths, row)
        })
    }
}

/// What is drawn is what the bus sends, and what is late is what the analyser finds.
#[test]
fn bars_are_what_the_bus_sends() {
    let mut random = Random::new(1);
    let (mut later, mut blocked, mut silent) = (0, 0, 0);
    for round in 0..3000 {
        let late = draw(&mut random);
        let schedule = late.schedule();
        let mut bars = vec![Vec::new(); schedule.lines.len()];
        for sent in late.sent(schedule.late.end) {
            bars[sent.row].push((sent.start as i64 - 1, sent.end() as i64 - 1));
        }
        let rows = drawn::rows(&schedule);
        let drawn: Vec<_> = rows.into_iter().map(|row| row.bars).collect();
        assert_eq!(drawn, bars, "round {round}");
        let claim = i64::from(late.rows[late.row][CLAIM]);
        assert_eq!((schedule.claim, schedule.response()), (claim, late.response));
        assert!(late.response > claim);
        later += u64::from(late.case.instance > 1);
        blocked += u64::from(schedule.begin() < 0);
        silent += u64::from(bars.iter().any(Vec::is_empty));
    }
    assert!(later > 50 && blocked > 300 && silent > 300, "{later} {blocked} {silent}");
}

/// The releases drawn are the queueings until the late instance ends.
#[test]
fn releases_are_queueings() {
    let mut random = Random::new(3);
    for round in 0..300 {
        let late = draw(&mut random);
        let schedule = late.schedule();
        let (ahead, _) = late.ahead_and_longest_below();
        for (row, drawn) in ahead.iter().zip(drawn::rows(&schedule)) {
            let ticks = (0..schedule.late.end).filter(|tick| late.is_queued(row, *tick));
            assert_eq!(drawn.releases, ticks.collect::<Vec<i64>>(), "round {round}");
        }
    }
}

/// Document 01's frame 48 with claim 198: 64 started a tick before, and holds the bus for 64 ticks more.
#[test]
fn whole_case() {
    let mut case = Case { alignments: [0; GROUPS], instance: 1 };
    case.alignments[0] = 300;
    let rows = WHOLE_CASE.to_vec();
    let late = Late { lengths: STANDARD, rows, row: 2, case, response: 199 };
    let schedule = late.schedule();
    assert_eq!((schedule.queueing, schedule.late.start, schedule.response()), (0, 64, 199));
    let rows = drawn::rows(&schedule);
    let bars: Vec<_> = rows.into_iter().map(|row| row.bars).collect();
    assert_eq!(bars, [vec![], vec![], vec![(64, 199)], vec![(-1, 64)]]);
    assert_eq!(schedule.alignments, [(1, 300)]);
    let roles: Vec<Role> = schedule.lines.iter().map(|line| line.role).collect();
    assert_eq!(roles, [Role::Better, Role::Better, Role::Judged, Role::Blocking]);
}
