//! Bus faults: examples worked out by hand (document 02, request 9).

use crate::bounds::View;
use crate::explain::{explain_view, Case};
use crate::faults::{explain_files, judge_files, list};
use crate::faulty_bus::{schedule, Attempt};
use crate::judgement::{judge_view, Search, LIMITS};
use crate::lengths::STANDARD;
use crate::lengths_examples::STANDARD_FILE;
use crate::literal_bus;
use crate::table::{file_of, Refusal, Row, CLAIM};
use crate::table_cases::WHOLE_CASE;

fn input(rows: &[Row]) -> Vec<u8> {
    [STANDARD_FILE.as_bytes(), &file_of(rows)].concat()
}

/// Verdict, bound and margin of a row under a gap.
fn judged(rows: &[Row], row: usize, gap: u64) -> (u32, u64, i64) {
    let view = View::under(Some(gap), &STANDARD, rows, row);
    let found = judge_view(Search::Plain, &view, LIMITS);
    assert_eq!(judge_view(Search::Pruned, &view, LIMITS), found);
    (found.verdict as u32, found.bound, found.margin)
}

/// A frame of 135 ticks alone: each fault costs 166. Faults 301 or more ticks apart hit it once, 166 + 135;
/// 300 apart the bound counts two, 332 + 135. 167 apart a tick in each gap is left to it: 135 gaps. 166
/// apart nothing is left.
#[test]
fn alone() {
    let rows = [[1, 1, 5, 11, 8, 1_000_000, 0, 1_000_000]];
    assert_eq!(judged(&rows, 0, 1_000_000), (1, 301, 999_699));
    assert_eq!(judged(&rows, 0, 301), (1, 301, 999_699));
    assert_eq!(judged(&rows, 0, 300), (1, 467, 999_533));
    assert_eq!(judged(&rows, 0, 167), (1, 135 * 167, 1_000_000 - 22_545));
    assert_eq!(judged(&rows, 0, 166), (11, 0, 0));
    assert_eq!(judged(&rows, 0, 1), (11, 0, 0));
}

/// On the bus the first fault begins in the last tick of the first attempt, 134; behind 31 ticks of
/// signalling the second attempt takes 166 to 301, which is the bound.
#[test]
fn alone_on_the_bus() {
    let rows: [Row; 1] = [[1, 1, 5, 11, 8, 1_000_000, 0, 1_000_000]];
    let mut fate = |_: usize, start: u64| (135, (start == 0).then_some(134));
    let list = schedule(&rows, &[0; 16], 400, 301, &mut fate);
    let attempt = |start, fault| Attempt { row: 0, instance: 0, start, length: 135, fault };
    assert_eq!(list, [attempt(0, Some(134)), attempt(166, None)]);
    assert_eq!(list[1].free(), 301);
    let ticked = literal_bus::schedule_with_faults(&rows, &[0; 16], 400, &[134], &mut || 135);
    assert_eq!(ticked, list);
}

/// Only frames ahead count for a fault: 86 for a frame of 55 ticks, though one of 135 ranks below, of
/// which 134 ticks are waited for.
#[test]
fn longest_frame_ahead() {
    let rows = [[1, 1, 1, 11, 0, 10_000, 0, 275], [2, 2, 2, 11, 8, 10_000, 0, 1000]];
    assert_eq!(judged(&rows, 0, 5000), (1, 134 + 86 + 55, 0));
    // The other one: a fault costs 166, and it waits for the first.
    assert_eq!(judged(&rows, 1, 5000), (1, 166 + 55 + 135, 644));
}

/// A gap that begins with the judged frame's own attempt: it is hit at w + C, not only up to w. With gap
/// 356 one fault is counted for 221 + 135, with 355 another.
#[test]
fn fault_in_the_own_attempt() {
    let rows = [[1, 1, 1, 11, 0, 10_000, 0, 1000], [2, 2, 2, 11, 8, 10_000, 0, 1000]];
    assert_eq!(judged(&rows, 1, 356).1, 356);
    assert_eq!(judged(&rows, 1, 355).1, 356 + 166);
}

/// Document 01's whole case with faults 10000 apart, each 166 ticks. 16: 134 + 166 + 135. 32, from its own
/// instant: 134 + 166 + 55. 48, from its own: 64 + 166 + 135. 64 meets 16, behind which 32 and 48 come by
/// then: 166 + 135 + 55 + 135 + 65.
#[test]
fn whole_case() {
    let listing = "        16  3     435     -135
        32  3     355     -166
        48  3     365     -167
        64  3     556     -356
";
    assert_eq!(list(&input(&WHOLE_CASE), 10_000), listing);
    assert_eq!(list(&input(&WHOLE_CASE), 0), " 17     0\n");
    assert_eq!(list(&input(&WHOLE_CASE), 1_000_001), " 17     0\n");
    assert_eq!(list(STANDARD_FILE.as_bytes(), 0), "  1     0\n");
}

/// 48 with claim 198: already at its group's alignment 0 it is late, queued at 300 behind the fault, 16 and
/// 32, which takes 64 + 166 + 135 + 55 = 420: 420 + 135 - 300 = 255. With claim 255 the next one is 200:
/// 64 + 166 + 55 = 285, 285 + 135 - 100 = 320.
#[test]
fn case_of_48() {
    let mut rows = WHOLE_CASE;
    for (claim, alignment) in [(198, 0), (254, 0), (255, 200), (319, 200), (320, 300), (364, 300)] {
        rows[2][CLAIM] = claim;
        let view = View::under(Some(10_000), &STANDARD, &rows, 2);
        let mut alignments = vec![0; 16];
        alignments[0] = alignment;
        let case = Some(Case { alignments, q: 1 });
        assert_eq!(explain_view(Search::Plain, &view, LIMITS).case, case);
        assert_eq!(explain_view(Search::Pruned, &view, LIMITS).case, case);
    }
}

/// The lengths, the table, 9, then 17.
#[test]
fn order_of_17() {
    let table = file_of(&WHOLE_CASE);
    let lengths = STANDARD_FILE.as_bytes();
    let refused = |number| Refusal { number, place: 0 };
    for gap in [0, 1_000_001, u64::MAX] {
        assert_eq!(judge_files([lengths, &table], 0, gap), Err(refused(17)));
        assert_eq!(judge_files([lengths, &table], 4, gap), Err(refused(9)));
        assert_eq!(judge_files([lengths, b""], 4, gap), Err(refused(1)));
        assert_eq!(judge_files([b"", b""], 4, gap), Err(refused(13)));
        assert_eq!(explain_files([lengths, &table], 0, gap), Err(refused(17)));
        assert_eq!(explain_files([lengths, &table], 4, gap), Err(refused(9)));
    }
    assert!(judge_files([lengths, &table], 0, 1).is_ok_and(|judged| judged.bound == 0));
    assert!(judge_files([lengths, &table], 0, 1_000_000).is_ok_and(|judged| judged.bound == 435));
}
