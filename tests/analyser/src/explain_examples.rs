//! The case that breaks a claim: examples worked out by hand (document 02, request 4).

use crate::bounds::View;
use crate::explain::{explain, explain_view, Case, Explained};
use crate::judgement::{Search, LIMITS};
use crate::lengths::STANDARD;
use crate::lengths_examples::STANDARD_FILE;
use crate::table::{file_of, Row, CLAIM};
use crate::table_cases::WHOLE_CASE;

/// By every scenario, and by those that matter.
fn explained(rows: &[Row], row: usize) -> Explained {
    let view = View::new(&STANDARD, rows, row);
    let found = explain_view(Search::Plain, &view, LIMITS);
    assert_eq!(explain_view(Search::Pruned, &view, LIMITS), found);
    found
}

/// The alignments shown for some groups, 0 for all others, and the instance.
fn case(at: &[(usize, u64)], q: u64) -> Option<Case> {
    let mut alignments = vec![0; 16];
    at.iter().for_each(|(group, alignment)| alignments[group - 1] = *alignment);
    Some(Case { alignments, q })
}

/// The case of the last row with this claim.
fn with_claim(rows: &[Row], claim: u32) -> Option<Case> {
    let mut rows = rows.to_vec();
    let last = rows.len() - 1;
    rows[last][CLAIM] = claim;
    explained(&rows, last).case
}

/// Frame 48 waits for 64 ticks of frame 64. At its group's alignment 0 the window is 199 long and 48 is
/// queued at 300; at 200 it is queued at 100 and starts at 64 + 55, 119 + 135 - 100 = 154; at 300 it
/// starts at 64, 64 + 135 = 199.
#[test]
fn whole_case() {
    let found = explained(&WHOLE_CASE, 2);
    assert_eq!((found.judgement.bound, found.judgement.margin), (199, -1));
    assert_eq!(found.case, case(&[(1, 300)], 1));
    for row in [0, 1, 3] {
        assert_eq!(explained(&WHOLE_CASE, row).case, None);
    }
    let input = [STANDARD_FILE.as_bytes(), &file_of(&WHOLE_CASE)].concat();
    let groups = "  1     300\n  2       0\n  3       0\n  4       0\n  5       0\n  6       0
  7       0\n  8       0\n  9       0\n 10       0\n 11       0\n 12       0\n 13       0\n 14       0
 15       0\n 16       0\n";
    let lines = format!("        48  3     199       -1\n{groups}  1\n");
    assert_eq!(explain(&input, 2), lines);
    assert_eq!(explain(&input, 3), "        64  2     200        0\n");
    assert_eq!(explain(&input, 4), "  9     0\n");
    assert_eq!(explain(&input[..91], 4), " 13     0\n");
}

/// With claim 153 the alignment at 200 is the first one that exceeds, with 154.
#[test]
fn first_and_not_worst() {
    let mut rows = WHOLE_CASE;
    rows[2][CLAIM] = 153;
    assert_eq!(explained(&rows, 2).case, case(&[(1, 200)], 1));
    rows[2][CLAIM] = 154;
    assert_eq!(explained(&rows, 2).case, case(&[(1, 300)], 1));
}

/// Three frames of 100 ticks, with periods 250, 350 and 350, each a group, queued at once. The last
/// one's first instance ends at 300. Its second is queued at 350 and starts when two of the others each
/// and its first are sent, at 500; there the first frame is queued a third time, so it starts at 600 and
/// ends at 700: 350 ticks. The window is 700 long.
#[test]
fn later_instance() {
    let rows: [Row; 3] = [
        [9, 9, 1, 29, 2, 250, 0, 1000],
        [4, 4, 2, 29, 2, 350, 17, 1000],
        [7, 7, 3, 29, 2, 350, 0, 349],
    ];
    assert_eq!(explained(&rows, 2).judgement.bound, 350);
    let at = [(4, 17)];
    assert_eq!(with_claim(&rows, 349), case(&at, 2));
    assert_eq!(with_claim(&rows, 300), case(&at, 2));
    // Both exceed it, and the first is shown.
    assert_eq!(with_claim(&rows, 299), case(&at, 1));
    assert_eq!(with_claim(&rows, 350), None);
}

/// Groups 1 and 3 each queue a short frame, and a longer one 500 ticks later: 55 or 65 ticks, and 55 or
/// 75. The judged frame of 55 waits for what is queued with it: 165 at (0, 0), 185 at (0, 500), 175 at
/// (500, 0), 195 at (500, 500).
#[test]
fn last_group_changes_fastest() {
    let mut rows: [Row; 5] = [
        [3, 3, 1, 11, 2, 1000, 500, 1000],
        [1, 1, 2, 11, 0, 1000, 0, 1000],
        [3, 3, 3, 11, 0, 1000, 0, 1000],
        [1, 1, 4, 11, 1, 1000, 500, 1000],
        [2, 2, 5, 11, 0, 1000, 0, 165],
    ];
    assert_eq!(explained(&rows, 4).judgement.bound, 195);
    let expected = [
        (164, case(&[], 1)),
        (165, case(&[(3, 500)], 1)),
        (184, case(&[(3, 500)], 1)),
        (185, case(&[(1, 500), (3, 500)], 1)),
        (194, case(&[(1, 500), (3, 500)], 1)),
        (195, None),
    ];
    for (claim, found) in &expected {
        assert_eq!(with_claim(&rows, *claim), *found);
    }
    // Whichever nodes and rows they are; the judged frame's group is looked at in its place.
    rows.iter_mut().for_each(|row| row[0] = 17 - row[0]);
    rows[..4].reverse();
    rows[4][1] = 16;
    for (claim, found) in expected {
        assert_eq!(with_claim(&rows, claim), found);
    }
}

/// The judged frame's group is the second one, and is looked at in its place. The first one has 65 ticks
/// at 0 and 95 at 500. The judged frame is queued at 0 and, with another of 55, at 500: 120 at (0, 0),
/// 175 at (0, 500), 150 at (500, 0) and 205 at (500, 500). From 250 and 750, where a third frame is
/// queued, it is 250 ticks away, and no window is so long.
#[test]
fn own_group_in_its_place() {
    let rows: [Row; 5] = [
        [1, 1, 1, 11, 1, 1000, 0, 1000],
        [1, 1, 2, 11, 4, 1000, 500, 1000],
        [2, 2, 3, 11, 0, 1000, 500, 1000],
        [2, 2, 4, 11, 0, 500, 250, 1000],
        [2, 2, 5, 11, 0, 500, 0, 149],
    ];
    let at = |first, own| case(&[(1, first), (2, own)], 1);
    assert_eq!(with_claim(&rows, 119), at(0, 0));
    assert_eq!(with_claim(&rows, 120), at(0, 500));
    assert_eq!(with_claim(&rows, 149), at(0, 500));
    assert_eq!(with_claim(&rows, 174), at(0, 500));
    assert_eq!(with_claim(&rows, 175), at(500, 500));
    assert_eq!(with_claim(&rows, 205), None);
}

/// Ten frames of 135 ticks, and ten more 58800 ticks later, meet a frame of 55 every 56 ticks, which
/// catches up by a tick each time: its first instance takes 1350 + 55. The 1045th, queued at 58464, has
/// 306 ticks left to wait and starts before the second ten are queued. The 1046th, queued at 58520, has
/// 305, which leads to 58825: it waits for them too, 305 + 1350 + 55 = 1710.
#[test]
fn instance_with_four_digits() {
    let row = |n| [1, 1, n, 11, 8, 1_000_000, n / 10 * 58_800, 1_000_000];
    let mut rows: Vec<Row> = (0..20).map(row).collect();
    rows.push([2, 2, 99, 11, 0, 56, 0, 1709]);
    let last = rows.len() - 1;
    assert_eq!(explained(&rows, last).judgement.bound, 1710);
    assert_eq!(with_claim(&rows, 1709), case(&[], 1046));
    assert_eq!(with_claim(&rows, 1405), case(&[], 1046));
    assert_eq!(with_claim(&rows, 1404), case(&[], 1));
    let input = [STANDARD_FILE.as_bytes(), &file_of(&rows)].concat();
    let text = explain(&input, last as i128);
    assert!(text.ends_with(" 16       0\n    1046\n"), "{text}");
}
