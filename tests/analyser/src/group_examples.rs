//! Nodes that start together: examples worked out by hand (document 02, request 6).

use crate::before;
use crate::lengths::STANDARD;
use crate::listing::list;
use crate::load_sheet::{load_sheet, sheet_of};
use crate::table::{self, Refusal, Row};
use crate::table_cases::{good_rows, part_rows, WHOLE_CASE};

/// Document 01's lengths and the example of two arms that start from one pulse.
const ARMS: &[&[u8]] = &[
    include_bytes!("../../../examples/standard.lengths"),
    include_bytes!("../../../examples/arms.table"),
];

/// Together: the arms take turns, so that a frame waits for one that began a tick before and for no
/// other, 134 + 135. Below 273 only the lift's 95 ticks are left, 94 + 135; the lift waits for one
/// frame, 135 + 95.
const TOGETHER: &str = "       256  1     269       31
       257  1     269       31
       272  1     269       31
       273  1     229       71
       512  1     230      170
";

/// Apart: 257 and 272 also wait for 256 or 257, 134 + 135 + 135. 273 meets 256, behind which 272
/// comes, 94 + 135 + 135 + 135. The lift waits for all four, 4 × 135 + 95.
const APART: &str = "       256  1     269       31
       257  3     404     -104
       272  3     404     -104
       273  3     499     -199
       512  3     635     -235
";

#[test]
fn arms() {
    let input = ARMS.concat();
    assert_eq!(list(&input), TOGETHER);
    let narrow = before::narrowed_file(ARMS[1]);
    let apart = [ARMS[0].to_vec(), before::widened_file(&narrow)].concat();
    assert_eq!(list(&apart), APART);
    let rows = before::parse(&narrow).expect("an accepted table");
    assert_eq!(before::list(&STANDARD, &rows), APART);
}

/// The arms send 270 ticks in 2500 each, and are one group with the hyperperiod 2500; the lift
/// sends 95 in 5000.
#[test]
fn load_of_the_arms() {
    let sheet = "  1      1080       0    2500
  2      1080       0    2500
  3       190       0    5000
  3      1080
";
    assert_eq!(load_sheet(&ARMS.concat()), sheet);
}

/// Group 5 has the hyperperiod 12. Node 9 sends 3 × 55 in it, 1650000 = 137500 × 12. Node 2 sends
/// 2 × 65, 1300000 = 108333 × 12 + 4. By itself node 2 has 6: 650000 = 108333 × 6 + 2.
#[test]
fn load_by_the_hyperperiod_of_the_group() {
    let rows = |groups: [u32; 2]| {
        [[9, groups[0], 1, 11, 0, 4, 0, 100], [2, groups[1], 2, 11, 1, 6, 0, 100]]
    };
    let together = "  2    108333       4      12\n  9    137500       0      12\n  2    137500\n";
    assert_eq!(sheet_of(&STANDARD, &rows([5, 5])), together);
    let apart = "  2    108333       2       6\n  9    137500       0       4\n  2    137500\n";
    assert_eq!(sheet_of(&STANDARD, &rows([5, 6])), apart);
    assert_eq!(before::sheet(&STANDARD, &rows([0, 0])), apart);
}

/// Document 01's whole case with both nodes in one group: frame 64 no longer meets frames 32 and 48,
/// and is queued with 16, 135 + 65.
#[test]
fn whole_case_together() {
    let mut rows = WHOLE_CASE;
    rows[3][table::GROUP] = 1;
    let listing = "        16  1     269       31
        32  1     189        0
        48  3     199       -1
        64  1     200        0
";
    let input = [ARMS[0].to_vec(), table::file_of(&rows)].concat();
    assert_eq!(list(&input), listing);
}

/// What was turned back stays so, with number and place.
#[test]
fn widened_tables_are_refused_as_before() {
    let narrow = before::narrowed_file(&table::file_of(&WHOLE_CASE));
    assert_eq!(before::widened_file(&narrow), table::file_of(&WHOLE_CASE));
    for size in 0..=narrow.len() {
        let before = before::parse(&narrow[..size]).map(|rows| rows.len());
        let now = table::parse(&before::widened_file(&narrow[..size])).map(|rows| rows.len());
        assert_eq!(now, before);
    }
    let words = before::narrowed_words(&good_rows(64).concat());
    for count in 0..=words.len() {
        let before = before::check(&words[..count]).map(|rows| rows.len());
        let now = table::check(&before::widened_words(&words[..count])).map(|rows| rows.len());
        assert_eq!(now, before);
    }
    let patterns: [(&[Row], u32); 2] = [
        (&part_rows(&[(3, 1, 1000), (4, 1, 1001), (9, 2, 1000), (9, 2, 1001)]), 6),
        (&part_rows(&[(3, 1, 1000), (4, 1, 1001), (9, 2, 999), (9, 2, 1000)]), 7),
    ];
    for (rows, number) in patterns {
        let words = before::narrowed_words(&rows.concat());
        let refused = Err(Refusal { number, place: 9 });
        assert_eq!(before::check(&words), refused);
        assert_eq!(table::check(&before::widened_words(&words)), refused);
    }
}
