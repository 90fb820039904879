//! The worst case of the frame that ranks last: examples worked out by hand (document 02, request 14).

use crate::judgement::Verdict;
use crate::lengths::STANDARD;
use crate::lengths_examples::STANDARD_FILE;
use crate::random::{clustered, dense, stretched, Random};
use crate::table::{self, file_of, Row, CLAIM, IDENTIFIER, OFFSET, PERIOD};
use crate::table_cases::WHOLE_CASE;
use crate::worst::{last_row, longest_response, worst, worst_rows, WorstCase};

/// The worst case, which the named schedule reaches.
fn shown(rows: &[Row]) -> Option<WorstCase> {
    let case = worst_rows(&STANDARD, rows).case?;
    let row = last_row(rows);
    let response = longest_response(&STANDARD, rows, row, &case.starts, case.instance, 10_000_000);
    assert_eq!(response, Some(case.response));
    Some(case)
}

/// The starts of some groups, another for all others, the instance, and its response.
fn case(at: &[(usize, u64)], others: u64, instance: u64, response: u64) -> Option<WorstCase> {
    let mut starts = [others; 16];
    at.iter().for_each(|(group, start)| starts[group - 1] = *start);
    Some(WorstCase { starts, instance, response })
}

/// Frame 64 waits for frame 16, 135 ticks, and takes 65: both groups start together. Its claim does not
/// matter, and a row in another place ranks no better.
#[test]
fn whole_case() {
    let mut rows = WHOLE_CASE;
    assert_eq!(shown(&rows), case(&[], 0, 0, 200));
    rows.reverse();
    assert_eq!(shown(&rows), case(&[], 0, 0, 200));
    rows[0][CLAIM] = 1;
    assert_eq!(shown(&rows), case(&[], 0, 0, 200));
    let input = [STANDARD_FILE.as_bytes(), &file_of(&rows)].concat();
    let groups: String = (1..=16).map(|group| format!("{group:>3}       0\n")).collect();
    let lines = format!("        64  3     200     -199\n{groups}       0     200\n");
    assert_eq!(worst(&input), lines);
    assert_eq!(worst(&input[..91]), " 13     0\n");
    assert_eq!(worst(&input[..92]), "  1     0\n");
}

/// Offsets from the period on: the line alone, though a whole period more changes no bound.
#[test]
fn late_starter() {
    let mut rows = WHOLE_CASE;
    rows[1][OFFSET] = 999;
    assert!(shown(&rows).is_some());
    rows[1][OFFSET] = 1000;
    assert_eq!(shown(&rows), None);
    rows[1][OFFSET] = 1200;
    assert_eq!(shown(&rows), None);
    let input = [STANDARD_FILE.as_bytes(), &file_of(&rows)].concat();
    assert_eq!(worst(&input), "        64  2     200        0\n");
}

/// As in the example of request 4: the second instance of the last frame takes 350 ticks. Group 4 has
/// its frame 17 ticks after its start, so it starts at 0 and all others at 17.
#[test]
fn later_instance() {
    let rows: [Row; 3] = [
        [9, 9, 1, 29, 2, 250, 0, 1000],
        [4, 4, 2, 29, 2, 350, 17, 1000],
        [7, 7, 3, 29, 2, 350, 0, 1000],
    ];
    assert_eq!(shown(&rows), case(&[(4, 0)], 17, 1, 350));
}

/// The last frame of 55 waits longest for 85 ticks that are queued 600 ticks after group 3's start; the
/// frame itself is queued 100 ticks after its group's, so that starts at 500.
#[test]
fn starts_that_differ() {
    let rows: [Row; 3] = [
        [3, 3, 1, 11, 0, 1000, 0, 1000],
        [5, 5, 9, 11, 0, 1000, 100, 1000],
        [3, 3, 2, 11, 3, 1000, 600, 1000],
    ];
    assert_eq!(shown(&rows), case(&[(3, 0), (5, 500)], 600, 0, 140));
}

/// One group: the second instance of the last frame, 500 ticks after the first, comes 20 ticks after a
/// frame of 135. It is the first one from the meeting tick, 480, on.
#[test]
fn instance_from_the_start() {
    let rows: [Row; 2] = [[1, 1, 1, 11, 8, 1000, 480, 1000], [1, 1, 2, 11, 0, 500, 0, 1000]];
    assert_eq!(shown(&rows), case(&[(1, 0)], 480, 1, 170));
}

/// No window, or too many scenarios for the exact bound though the rough one certifies: the line alone.
#[test]
fn no_exact_bound() {
    let alone = |period| [[1, 1, 1, 11, 8, period, 0, 1000]];
    assert_eq!(shown(&alone(135)), case(&[], 0, 0, 135));
    assert_eq!(shown(&alone(134)), None);
    let mut random = Random::new(1);
    let group = |group| {
        let row = move |n| [group, group, 100 * group + n, 11, 0, 1_000_000, 60_000 * n, 1_000_000];
        (0..16).map(row).collect::<Vec<Row>>()
    };
    let mut rows: Vec<Row> = (1..=4).flat_map(group).collect();
    random.shuffle(&mut rows);
    assert!(shown(&rows).is_some(), "65536 scenarios");
    let twice = rows.iter_mut().find(|row| row[IDENTIFIER] == 400).expect("the row");
    twice[PERIOD] = 500_000;
    assert_eq!(shown(&rows), None, "16 × 16 × 16 × 17");
    assert_eq!(worst_rows(&STANDARD, &rows).judgement.verdict, Verdict::CertifiedRough);
}

/// Drawn tables of several groups, with short and long periods: the named schedule reaches every bound.
#[test]
fn drawn_tables() {
    let mut random = Random::new(14);
    let mut reached = [0; 3];
    for _ in 0..300 {
        let rows = match random.below(3) {
            0 => dense(&mut random, &STANDARD, 5),
            1 => stretched(&mut random, 3, 4, 500),
            _ => clustered(&mut random, &STANDARD, 4, 4, (120, 500)),
        };
        if table::check(&rows.concat()).is_err() {
            continue;
        }
        if let Some(case) = shown(&rows) {
            reached[0] += 1;
            reached[1] += u64::from(case.instance > 0);
            reached[2] += u64::from(case.starts.iter().any(|start| *start != case.starts[0]));
        }
    }
    assert!(reached.iter().all(|times| *times > 20), "{reached:?}");
}
