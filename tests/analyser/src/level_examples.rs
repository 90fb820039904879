//! Levels between the rough and the exact bound: examples worked out by hand (document 02, request 13).

use crate::bounds::View;
use crate::judgement::{judge_row_by, precise_bound, Search, LIMITS};
use crate::lengths::STANDARD;
use crate::table::{self, Refusal, Row, CLAIM, GROUP, NODE, OFFSET};

/// A cart whose frame of 55 ticks looks the same from each of 255 alignments: another frame, which ranks
/// below all, is queued every 255 periods.
fn cart(group: u32) -> [Row; 2] {
    let [ahead, below] = [group, 100 + group];
    [[group, group, ahead, 11, 0, 1000, 0, 1], [group, group, below, 11, 0, 255_000, 0, 1]]
}

/// A cart with frames of 135, 55 and 135 ticks at 0, 500 and 750: three alignments.
fn arm(group: u32) -> [Row; 3] {
    let row = |n: u32, payload, offset| [group, group, 20 + n, 11, payload, 2000, offset, 1];
    [row(0, 8, 0), row(1, 0, 500), row(2, 8, 750)]
}

/// The judged frame of 65 ticks, in a group of its own.
fn judged(group: u32) -> Row {
    [group, group, 50, 11, 1, 2000, 0, 1]
}

/// The last row with a claim: verdict, bound and margin, by both searches.
fn at(rows: &[Row], claim: u32) -> (u32, u64, i64) {
    let mut rows = rows.to_vec();
    let last = rows.len() - 1;
    rows[last][CLAIM] = claim;
    table::check(&rows.concat()).expect("an accepted table");
    let by = |search| judge_row_by(search, &STANDARD, &rows, last, LIMITS);
    let found = by(Search::Pruned);
    assert_eq!(by(Search::Plain), found);
    (found.verdict as u32, found.bound, found.margin)
}

/// The judged frame waits for 54 ticks of one below and for 55 of each of two carts, 164. With the arm's
/// frame at 0 or at 750 it starts at 299; with that at 500 at 219, before the one at 750 is queued 250
/// ticks later. The arm's greatest sums are 135 up to 249 and 190 from 250 on, which leads to 354.
const ROUGH: u64 = 354 + 65;
const FIXED: u64 = 299 + 65;

/// The arm is group 1 and is fixed second: 1 × 3 × 255 = 765, and with the last cart 195075.
#[test]
fn arm_is_fixed() {
    let rows = [&arm(1)[..], &cart(3), &cart(4), &[judged(2)]].concat();
    let view = View::new(&STANDARD, &rows, rows.len() - 1);
    assert_eq!(view.scenario_count(), 195_075);
    // The own group, the arm, and group 3.
    assert_eq!((view.deepest_level(65_536), view.level_product(3)), (3, 765));
    assert_eq!(at(&rows, 419), (1, ROUGH, 0));
    assert_eq!(at(&rows, 418), (4, FIXED, 54));
    assert_eq!(at(&rows, 364), (4, FIXED, 0));
    assert_eq!(at(&rows, 363), (12, ROUGH, -56));
    // The operation that gives only the exact bound still refuses.
    let row = rows.len() - 1;
    let refused = Err(Refusal { number: 12, place: row as u32 });
    assert_eq!(precise_bound(&STANDARD, &rows.concat(), row as i128), refused);
}

/// The arm is group 5, behind both carts: 255 × 255 = 65025 are fixed, with the arm 195075 would be.
#[test]
fn arm_stays_open() {
    let rows = [&arm(5)[..], &cart(3), &cart(4), &[judged(2)]].concat();
    assert_eq!(at(&rows, 419), (1, ROUGH, 0));
    assert_eq!(at(&rows, 418), (12, ROUGH, -1));
    assert_eq!(at(&rows, 364), (12, ROUGH, -55));
}

/// The judged frame's group is fixed first, whichever its number: 255 alignments of group 16 and 255 of
/// group 1 leave no room for the arm, group 2. There is one cart to wait for: rough 109 + 190 + 65, and
/// 109 + 135 + 65 with the arm fixed.
#[test]
fn own_group_is_fixed_first() {
    let own = |group| [cart(group)[1], [group, group, 50, 11, 1, 1000, 0, 1]];
    let rows = [&shifted(arm(2))[..], &cart(1), &own(16)].concat();
    assert_eq!(at(&rows, 364), (1, 364, 0));
    assert_eq!(at(&rows, 363), (12, 364, -1));
    // As group 1 it is fixed first too, and then the arm.
    let mut turned = rows.clone();
    for row in &mut turned {
        let group = 17 - row[GROUP];
        (row[NODE], row[GROUP]) = (group, group);
    }
    assert_eq!(at(&turned, 363), (4, 309, 54));
    assert_eq!(at(&turned, 308), (12, 364, -56));
}

/// The arm with its second frame 50 ticks later, for a wait that is 55 ticks shorter.
fn shifted(mut rows: [Row; 3]) -> [Row; 3] {
    rows[1][OFFSET] = 550;
    rows
}

/// 226 × 145 × 2 = 65540 exceeds the limit, 256 × 256 does not. The judged frame is alone in group 1.
#[test]
fn products_at_the_limit() {
    let cart = |group: u32, count: u32| -> [Row; 2] {
        let below = [group, group, 100 + group, 11, 0, 1000 * count, 0, 1];
        [[group, group, group, 11, 0, 1000, 0, 1], below]
    };
    let with = |counts: &[u32]| -> Vec<Row> {
        let carts: Vec<Row> = (2..).zip(counts).flat_map(|(group, n)| cart(group, *n)).collect();
        [&carts[..], &[judged(1)]].concat()
    };
    let depth = |rows: &[Row]| View::new(&STANDARD, rows, rows.len() - 1).deepest_level(65_536);
    // Groups with one alignment count 1, and are fixed with those before them.
    assert_eq!(depth(&with(&[226, 145, 2])), 3);
    assert_eq!(depth(&with(&[217, 151, 2])), 16);
    assert_eq!(depth(&with(&[217, 151, 2, 2])), 4);
    assert_eq!(depth(&with(&[128, 128, 4])), 16);
    assert_eq!(depth(&with(&[128, 128, 4, 3])), 4);
}
