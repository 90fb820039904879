//! The examples of document 01, and load sheets worked out by hand.

use crate::bounds::View;
use crate::judgement::{judge, precise_bound, LIMITS};
use crate::lengths::{length, STANDARD};
use crate::lengths_examples::STANDARD_FILE;
use crate::listing::{bound_number, judge_number, list};
use crate::load_sheet::{load_sheet, sheet_of, Load};
use crate::random::Random;
use crate::table::{Refusal, Row, CLAIM, GROUP, NODE, PERIOD};
use crate::{judge_cases, table_cases};

const FILE: &str = "  1  1        16 11 8    1000       0     300
  1  1        32 11 0    1000     200     189
  1  1        48 11 8    1000     300     198
  2  2        64 11 1    1000       0     200
";
const LISTING: &str = "        16  1     269       31
        32  1     189        0
        48  3     199       -1
        64  2     200        0
";

fn with_lengths(file: &str) -> String {
    [STANDARD_FILE, file].concat()
}

fn judged(rows: &[Row], row: usize) -> (u32, u64, i64) {
    let judged = judge(&STANDARD, &rows.concat(), row as i128).expect("an accepted table");
    (judged.verdict as u32, judged.bound, judged.margin)
}

#[test]
fn whole_case() {
    assert_eq!(list(with_lengths(FILE).as_bytes()), LISTING);
    assert_eq!(list(with_lengths("").as_bytes()), "  1     0\n");
    let mut rows = table_cases::WHOLE_CASE;
    let exact = |row| precise_bound(&STANDARD, &rows.concat(), row).expect("an accepted table");
    assert_eq!([0, 1, 2, 3].map(exact), [269, 189, 199, 200]);
    let rough = View::new(&STANDARD, &rows, 3).rough(LIMITS.window);
    assert_eq!(rough.map(|worst| worst.response), Some(255));
    rows[3][CLAIM] = 199;
    assert_eq!(judged(&rows, 3), (3, 200, -1));
    rows[3][CLAIM] = 255;
    assert_eq!(judged(&rows, 3), (1, 255, 0));
}

#[test]
fn one_frame() {
    assert_eq!(judged(&[[1, 1, 5, 11, 8, 135, 0, 135]], 0), (1, 135, 0));
    let full = [[1, 1, 5, 11, 8, 134, 0, 135]];
    assert_eq!(judged(&full, 0), (11, 0, 0));
    let refusal = Refusal { number: 11, place: 0 };
    assert_eq!(precise_bound(&STANDARD, &full.concat(), 0), Err(refusal));
}

#[test]
fn numbers_for_c() {
    let words = table_cases::WHOLE_CASE.concat();
    assert_eq!(judge_number(judge(&STANDARD, &words, 2)), 300_001_990_999_999);
    assert_eq!(judge_number(judge(&STANDARD, &words, 4)), -90_000);
    assert_eq!(bound_number(precise_bound(&STANDARD, &words, 2)), 199);
    assert_eq!(bound_number(precise_bound(&STANDARD, &words[1..], 2)), -100_000);
}

/// The outcomes worked out by hand are held against the analyser on the way.
#[test]
fn cases_hold() {
    assert!(table_cases::all().len() >= 300);
    assert!(judge_cases::all().len() >= 500);
}

/// Node 1 sends 135 + 55 + 135 ticks in 1000, 325 × 10000 / 1000 = 3250; node 2 sends 65.
#[test]
fn load_sheet_of_the_whole_case() {
    let sheet = "  1      3250       0    1000
  2       650       0    1000
  2      3250
";
    assert_eq!(load_sheet(with_lengths(FILE).as_bytes()), sheet);
    assert_eq!(load_sheet(with_lengths("").as_bytes()), "  1     0\n");
}

/// Node 1: 160 in 1000000, and 1600000 = 1 × 1000000 + 600000. Node 5: 80 in 7, and
/// 800000 = 114285 × 7 + 5. Node 16: periods 3 and 7, in 21 ticks 7 × 55 + 3 × 65 = 580, and
/// 5800000 = 276190 × 21 + 10.
#[test]
fn load_sheet_with_remainders() {
    let file = " 16 16         1 11 0       3       0     100
  5  5         2 29 0       7       0     100
 16 16         3 11 1       7       0     100
  1  1         4 29 8 1000000       0     100
";
    let sheet = "  1         1  600000 1000000
  5    114285       5       7
 16    276190      10      21
  3    276190
";
    assert_eq!(load_sheet(with_lengths(file).as_bytes()), sheet);
}

/// The greatest quotient: 64 frames of 160 ticks at each tick, 64 × 160 × 10000.
#[test]
fn greatest_load() {
    let row = |line| [7, 7, line, 29, 8, 1, 0, 1];
    let rows: Vec<Row> = (0..64).map(row).collect();
    let sheet = "  7 102400000       0       1\n  1 102400000\n";
    assert_eq!(sheet_of(&STANDARD, &rows), sheet);
}

/// A node's work is what it queues in the hyperperiod of its group, counted tick by tick.
#[test]
fn load_by_ticks() {
    let mut random = Random::new(1);
    for _ in 0..500 {
        let mut row = |node| {
            let payload = random.below(9) as u32;
            [node, 2, 0, 11, payload, random.between(1, 12) as u32, 0, 1]
        };
        let rows = [row(1), row(1), row(3)];
        let queued = |tick: u64| rows.iter().filter(move |row| tick % u64::from(row[PERIOD]) == 0);
        let end = (1..).find(|tick| queued(*tick).count() == rows.len()).expect("a hyperperiod");
        for node in [1, 3] {
            let sent = (0..end).flat_map(queued).filter(|row| row[NODE] == node);
            let work: u64 = sent.map(|row| length(&STANDARD, row)).sum();
            let load = Load::by(GROUP, &STANDARD, &rows, node);
            assert_eq!(load.divisor, end);
            assert_eq!(load.quotient * end + load.remainder, work * 10_000);
            assert!(load.remainder < end);
        }
    }
}
