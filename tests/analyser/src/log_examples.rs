//! Logs, sheets and simulations worked out by hand from document 02, requests 10 to 12.

use crate::lengths::{self, STANDARD};
use crate::log::{self, Line};
use crate::log_cases::{Asked, Operation};
use crate::table::{self, Row};
use crate::table_cases::WHOLE_CASE;

/// What is asked, and what the command prints.
pub type Example = (Asked, String);

/// Document 01's table: groups 1 (frames 16, 32 and 48, up to 135, 55 and 135 ticks) and 2 (frame 64, up
/// to 65). Group 1 starts at 5 and group 2 at 7: frame 64 waits for 16, and again a period later.
const ACCEPTED: [Line; 6] = [
    [5, 16, 11, 5, 135],
    [140, 64, 11, 7, 60],
    [205, 32, 11, 205, 55],
    [305, 48, 11, 305, 1],
    [1005, 16, 11, 1005, 135],
    [1140, 64, 11, 1007, 65],
];

/// Responses: 135 twice; 55; 1; 200 - 7 and 1205 - 1007.
const SEEN: &str = "        16    2        135            270
        32    1         55             55
        48    1          1              1
        64    2        198            391
";

/// Both groups start at 0, and at 1000 frame 16 and frame 64 are queued; the better one is sent.
const MEETING: [Line; 5] = [
    [0, 16, 11, 0, 135],
    [135, 64, 11, 0, 65],
    [200, 32, 11, 200, 55],
    [300, 48, 11, 300, 135],
    [1000, 16, 11, 1000, 135],
];

/// One group of two nodes: frame 9 every 50 ticks, and the better frame 7 late, from the 450th on.
const LATE: [Row; 2] = [[3, 6, 7, 29, 2, 100, 450, 500], [4, 6, 9, 11, 0, 50, 0, 500]];

/// The same identifier in both kinds, each in its own group; on a tie the short frame goes first.
const BOTH_KINDS: [Row; 2] = [[1, 1, 0, 29, 0, 200, 0, 500], [2, 2, 0, 11, 0, 300, 0, 500]];

/// A frame of up to 55 ticks alone.
const ALONE: [Row; 1] = [[8, 4, 77, 11, 0, 100, 0, 500]];

/// The log of a frame that is sent every 100 ticks, for 50 of them.
fn alone(lines: u64) -> Vec<Line> {
    (0..lines).map(|n| [100 * n, 77, 11, 100 * n, 50]).collect()
}

/// A line a group: those named have their own starts, all others the last one.
fn shown(own: &[(usize, u64)], other: u64) -> String {
    let start = |group| own.iter().find(|(named, _)| *named == group).map_or(other, |(_, s)| *s);
    (1..=16).map(|group| format!("{group:>3}{:>11}\n", start(group))).collect()
}

fn refused(number: u32, place: u32) -> String {
    format!("{number:>3}{place:>6}\n")
}

/// Lengths and a table in one input.
fn input(rows: &[Row]) -> Vec<u8> {
    [lengths::file_of(&STANDARD), table::file_of(rows)].concat()
}

fn check(rows: &[Row], lines: &[Line], expected: String) -> Example {
    checked(input(rows), log::file_of(lines), expected)
}

fn checked(input: Vec<u8>, log: Vec<u8>, expected: String) -> Example {
    (Asked { operation: Operation::Check, numbers: [0, 0], input, log }, expected)
}

fn busiest(rows: &[Row], lines: &[Line], width: u64, expected: String) -> Example {
    let (input, log) = (input(rows), log::file_of(lines));
    (Asked { operation: Operation::Busiest, numbers: [width, 0], input, log }, expected)
}

fn simulated(input: Vec<u8>, numbers: [u64; 2], expected: &str) -> Example {
    (Asked { operation: Operation::Simulate, numbers, input, log: Vec::new() }, expected.into())
}

/// The lines with one of them changed in one column.
fn with(lines: &[Line], place: usize, column: usize, value: u64) -> Vec<Line> {
    let mut lines = lines.to_vec();
    lines[place - 1][column] = value;
    lines
}

pub fn all() -> Vec<Example> {
    let parts = [
        accepted(),
        wrong_lines(),
        wrong_orders(),
        late_frames(),
        notation(),
        sizes(),
        in_front(),
        stretches(),
        no_stretches(),
        by_seed(),
    ];
    parts.into_iter().flatten().collect()
}

/// Every beginning of the document's log is accepted; a group shows its start from its first line on.
fn accepted() -> Vec<Example> {
    let doc = |count: usize, own: &[(usize, u64)], other| {
        check(&WHOLE_CASE, &ACCEPTED[..count], shown(own, other))
    };
    vec![
        doc(0, &[], 0),
        doc(1, &[(1, 5)], 140),
        doc(2, &[(1, 5), (2, 7)], 200),
        doc(3, &[(1, 5), (2, 7)], 260),
        doc(4, &[(1, 5), (2, 7)], 306),
        doc(5, &[(1, 5), (2, 7)], 1140),
        doc(6, &[(1, 5), (2, 7)], 1205),
        check(&WHOLE_CASE, &MEETING, shown(&[(1, 0), (2, 0)], 1135)),
        // A last line of the largest length, where one of a tick more would not do.
        check(&WHOLE_CASE, &with(&ACCEPTED, 3, 4, 55)[..3], shown(&[(1, 5), (2, 7)], 260)),
        // At 0 both kinds are queued, the short one is better; the long one's next is at 200.
        check(
            &BOTH_KINDS,
            &[[0, 0, 11, 0, 55], [55, 0, 29, 0, 80], [200, 0, 29, 200, 80]],
            shown(&[(1, 0), (2, 0)], 280),
        ),
    ]
}

/// One line that cannot be, whatever the starts.
fn wrong_lines() -> Vec<Example> {
    let doc = |lines: &[Line], place| check(&WHOLE_CASE, lines, refused(19, place));
    let [start, identifier, kind, queueing, length] = [0, 1, 2, 3, 4];
    let mut list = vec![
        // Idle from 5 to 6 while frame 16 waits; and it is not queued before it starts.
        doc(&with(&ACCEPTED, 1, start, 6), 1),
        doc(&with(&ACCEPTED, 1, start, 4), 1),
        // A tick's idle time between 140 and 141, while frame 64 waits; a start before the end.
        doc(&with(&ACCEPTED, 2, start, 141), 2),
        doc(&with(&ACCEPTED, 2, start, 139), 2),
        // The queueing is 5 + 200, and then that of instance 1.
        doc(&with(&ACCEPTED, 3, queueing, 204), 3),
        doc(&with(&ACCEPTED, 5, queueing, 1004), 5),
        doc(&with(&ACCEPTED, 5, queueing, 5), 5),
        doc(&with(&ACCEPTED, 6, queueing, 1006), 6),
        // Queued at 100, frame 32 would have been before its offset of 200; queued at 200, frame 16
        // would have been at 0.
        doc(&[[100, 32, 11, 100, 55]], 1),
        doc(&[[200, 32, 11, 200, 55]], 1),
    ];
    // A frame that is not in the table, in its kind or in any; a length that it cannot have.
    list.extend(
        [17, 0, 2048, 9_999_999_999, 4_294_967_312]
            .map(|other| doc(&with(&ACCEPTED, 4, identifier, other), 4)),
    );
    list.extend(
        [29, 0, 10, 12, 30, 267, 999].map(|other| doc(&with(&ACCEPTED, 5, kind, other), 5)),
    );
    list.extend([0, 136, 391, 9999].map(|other| doc(&with(&ACCEPTED, 1, length, other), 1)));
    list.extend([0, 66, 9999].map(|other| doc(&with(&ACCEPTED, 6, length, other), 6)));
    // In both kinds there is identifier 0 and none is 5; the long one takes up to 80 ticks.
    list.push(check(&BOTH_KINDS, &[[0, 0, 11, 0, 56]], refused(19, 1)));
    list.push(check(&BOTH_KINDS, &[[0, 0, 29, 0, 81]], refused(19, 1)));
    list.push(check(&BOTH_KINDS, &[[0, 5, 29, 0, 1]], refused(19, 1)));
    list
}

/// Lines that are good by themselves.
fn wrong_orders() -> Vec<Example> {
    let doc = |lines: &[Line], place| check(&WHOLE_CASE, lines, refused(19, place));
    let [frame_16, frame_64] = [MEETING[0], MEETING[1]];
    vec![
        // Line 2 gives the start of group 2, with which frame 64 waited from 3 on while the bus was idle
        // until 5: line 1 is wrong, and the beginning of two lines is the shortest that fails.
        doc(&with(&ACCEPTED, 2, 3, 3), 2),
        // At 0 the better frame 16 would have gone first; only line 2 tells that it was queued.
        doc(&[[0, 64, 11, 0, 65], [65, 16, 11, 0, 135]], 2),
        // By line 5 both groups are known: frame 16 waits at 1000, and frame 64 goes ahead.
        doc(&with(&with(&MEETING, 5, 1, 64), 5, 4, 65), 5),
        // Twice the same instance; an instance left out; the wrong way round; a later wrong line more.
        doc(&[frame_16, [135, 16, 11, 0, 135]], 2),
        doc(&[frame_16, [1135, 16, 11, 1000, 135]], 2),
        doc(&[frame_64, frame_16], 1),
        doc(&with(&with(&ACCEPTED, 3, 0, 206), 5, 2, 29), 3),
        // Frame 32 is left out: the bus is idle from 200 on while it waits.
        doc(&[MEETING[0], MEETING[1], MEETING[3]], 3),
    ]
}

/// Late frames wait for nothing before their offset; two nodes of one group.
fn late_frames() -> Vec<Example> {
    // Frame 9 from 20 on, every 50 ticks for 10; at 470 frame 7 goes first, and again at 570.
    let mut lines: Vec<Line> = (0..9).map(|n| [20 + 50 * n, 9, 11, 20 + 50 * n, 10]).collect();
    lines.extend([[470, 7, 29, 470, 100], [570, 7, 29, 570, 1], [571, 9, 11, 470, 10]]);
    let late = |lines: &[Line], expected| check(&LATE, lines, expected);
    vec![
        late(&lines, shown(&[(6, 20)], 581)),
        late(&with(&lines, 10, 3, 370), refused(19, 10)),
        late(&with(&lines, 12, 3, 520), refused(19, 12)),
        // Frame 7 first: queued at 450 or later, and with it frame 9 was queued 450 ticks before.
        late(&[[449, 7, 29, 449, 100]], refused(19, 1)),
        late(&[[450, 7, 29, 450, 100]], refused(19, 1)),
        // Alone, a frame that begins late may be queued first at its offset.
        check(&LATE[..1], &[[450, 7, 29, 450, 100]], shown(&[(6, 0)], 550)),
        check(&LATE[..1], &[[449, 7, 29, 449, 100]], refused(19, 1)),
        // The other node of the group is known by the first line: it is queued at 20, not at 21.
        late(&with(&lines, 1, 3, 19), refused(19, 1)),
        late(&with(&lines, 10, 3, 469), refused(19, 10)),
    ]
}

/// Columns, line feeds and limits; a broken line comes before all that is wrong.
fn notation() -> Vec<Example> {
    let edited = |at: usize, text: &str, place| {
        let mut log = log::file_of(&ACCEPTED);
        log[at..at + text.len()].copy_from_slice(text.as_bytes());
        checked(input(&WHOLE_CASE), log, refused(18, place))
    };
    let line = |place: usize| (place - 1) * 40;
    let mut list = vec![
        edited(line(1), "           ", 1),
        edited(line(1) + 9, "05", 1),
        edited(line(2) + 8, " 1 ", 2),
        edited(line(2) + 11, "\t", 2),
        edited(line(3) + 19, "-3", 3),
        edited(line(4) + 21, "011", 4),
        edited(line(4) + 22, "1x", 4),
        edited(line(5) + 35, "    ", 5),
        edited(line(6) + 38, " ", 6),
        edited(line(6) + 39, "\r", 6),
        edited(line(6) + 39, " ", 6),
        edited(line(3) + 39, "\0", 3),
        edited(line(2), "10000000000", 2),
        edited(line(5) + 24, "10000000000", 5),
        edited(line(5) + 24, "99999999999", 5),
    ];
    // The second line is wrong and the fourth broken; the first is broken as well.
    let mut log = log::file_of(&with(&ACCEPTED, 2, 0, 141));
    log[line(4) + 39] = b'0';
    list.push(checked(input(&WHOLE_CASE), log.clone(), refused(18, 4)));
    log[0] = b'x';
    list.push(checked(input(&WHOLE_CASE), log, refused(18, 1)));
    // The last tick for start and queueing, which the last end may pass.
    let last = 9_999_999_999;
    list.push(check(&ALONE, &[[last, 77, 11, last, 55]], shown(&[(4, last)], last + 55)));
    list.push(check(&ALONE, &[[last + 1, 77, 11, last, 55]], refused(18, 1)));
    list.push(check(&ALONE, &[[last, 77, 11, last + 1, 55]], refused(18, 1)));
    list
}

/// From no bytes to more than 64000.
fn sizes() -> Vec<Example> {
    let full = alone(1600);
    let log = log::file_of(&full);
    let sized = |size: usize, expected| {
        let bytes = log.iter().copied().cycle().take(size).collect();
        checked(input(&ALONE), bytes, expected)
    };
    let mut broken = log.clone();
    broken[63_999] = b' ';
    vec![
        sized(0, shown(&[], 0)),
        sized(1, refused(18, 0)),
        sized(39, refused(18, 0)),
        sized(40, shown(&[(4, 0)], 50)),
        sized(41, refused(18, 0)),
        sized(3999, refused(18, 0)),
        sized(4000, shown(&[(4, 0)], 9950)),
        sized(64_000, shown(&[(4, 0)], 159_950)),
        sized(64_040, refused(18, 0)),
        check(&ALONE, &with(&full, 1600, 0, 159_901), refused(19, 1600)),
        checked(input(&ALONE), broken, refused(18, 1600)),
    ]
}

/// Lengths and table come before the log, however broken it is.
fn in_front() -> Vec<Example> {
    let log = || b"no log".to_vec();
    let mut node_17 = WHOLE_CASE;
    node_17[2][0] = 17;
    let mut falling = STANDARD;
    falling[1][4] = 99;
    let falling = [lengths::file_of(&falling), table::file_of(&WHOLE_CASE)].concat();
    let mut list = Vec::new();
    for (bytes, expected) in [
        (Vec::new(), refused(13, 0)),
        (input(&WHOLE_CASE)[1..].to_vec(), refused(13, 0)),
        (falling, refused(14, 2)),
        (lengths::file_of(&STANDARD), refused(1, 0)),
        (input(&node_17), refused(4, 3)),
        (input(&[WHOLE_CASE[0], WHOLE_CASE[0]]), refused(5, 2)),
    ] {
        list.push(checked(bytes.clone(), log(), expected.clone()));
        let operation = Operation::Busiest;
        let asked = Asked { operation, numbers: [0, 0], input: bytes.clone(), log: log() };
        list.push((asked, expected.clone()));
        list.push(simulated(bytes, [0, 0], &expected));
    }
    list
}

/// Busy from 5 to 200, 205 to 260, at 305, and from 1005 to 1205.
fn stretches() -> Vec<Example> {
    let doc = |width, busy: u64, first: u64| {
        busiest(&WHOLE_CASE, &ACCEPTED, width, format!("{busy:>11}{first:>11}\n{SEEN}"))
    };
    let last = 9_999_999_999;
    let far = |width, busy: u64, first: u64| {
        let sheet = format!("{busy:>11}{first:>11}\n        77    1         55             55\n");
        busiest(&ALONE, &[[last, 77, 11, last, 55]], width, sheet)
    };
    let many = |lines, width, busy: u64, first: u64| {
        let seen = format!("        77{lines:>5}         50{:>15}\n", 50 * lines);
        busiest(&ALONE, &alone(lines), width, format!("{busy:>11}{first:>11}\n{seen}"))
    };
    vec![
        // The first busy tick; all of 5..200 is as good as a part of 1005..1205.
        doc(1, 1, 5),
        doc(195, 195, 5),
        doc(196, 196, 1005),
        doc(200, 200, 1005),
        // From 1004 on, or a tick earlier 201 with 5 idle ticks inside; then 5..260 is the better.
        doc(201, 200, 1004),
        doc(206, 201, 5),
        doc(255, 250, 5),
        doc(256, 250, 4),
        doc(260, 250, 0),
        doc(261, 250, 0),
        // With 305 as well, as late as it must be and no later.
        doc(301, 251, 5),
        doc(306, 251, 0),
        // All but the first tick, or the first five: 451 are busy in all.
        doc(1205, 451, 0),
        doc(1204, 451, 1),
        doc(1200, 451, 5),
        doc(1199, 450, 5),
        // Beyond what a start can be.
        far(1, 1, last),
        far(55, 55, last),
        far(56, 55, last - 1),
        far(last + 55, 55, 0),
        // Many stretches are equal, and the earliest is shown.
        many(20, 1, 1, 0),
        many(20, 50, 50, 0),
        many(20, 100, 50, 0),
        many(20, 101, 51, 0),
        many(20, 149, 99, 0),
        many(20, 151, 100, 0),
        many(1600, 100, 50, 0),
        many(1600, 159_950, 80_000, 0),
        // The same identifier in both kinds: the short one is seen once, the long one twice.
        busiest(
            &BOTH_KINDS,
            &[[0, 0, 11, 0, 55], [55, 0, 29, 0, 80], [200, 0, 29, 200, 80]],
            80,
            "         80          0
         0    2        135            215
         0    1         55             55
"
            .into(),
        ),
        // A frame that is not seen has zeros.
        busiest(
            &LATE,
            &[[20, 9, 11, 20, 10]],
            30,
            "         10          0
         7    0          0              0
         9    1         10             10
"
            .into(),
        ),
    ]
}

/// Widths outside the log, and what comes before them.
fn no_stretches() -> Vec<Example> {
    let doc = |lines: &[Line], width, expected| busiest(&WHOLE_CASE, lines, width, expected);
    vec![
        doc(&ACCEPTED, 0, refused(20, 0)),
        doc(&ACCEPTED, 1206, refused(20, 0)),
        doc(&ACCEPTED, 4_294_967_297, refused(20, 0)),
        doc(&ACCEPTED, 999_999_999_999_999_999, refused(20, 0)),
        doc(&[], 0, refused(20, 0)),
        doc(&[], 1, refused(20, 0)),
        doc(&with(&ACCEPTED, 2, 0, 141), 0, refused(19, 2)),
        doc(&with(&ACCEPTED, 2, 0, 141), 1206, refused(19, 2)),
        doc(&with(&ACCEPTED, 3, 0, 10_000_000_000), 0, refused(18, 3)),
    ]
}

/// From seed 1 the generator gives 270369, 67634689, 2647435461, 307599695, 2398689233 and 745495504.
fn by_seed() -> Vec<Example> {
    // Starts 369 and 689; frame 16 takes 1 + 2647435461 mod 135 = 7, 32 takes 1 + 307599695 mod 55 = 41,
    // 48 takes 1 + 2398689233 mod 135 = 54, and 64, which waits for it, 1 + 745495504 mod 65 = 40.
    let first = "        369        16 11        369   7
        569        32 11        569  41
        669        48 11        669  54
        723        64 11        689  40
";
    let doc = |numbers, expected: &str| simulated(input(&WHOLE_CASE), numbers, expected);
    let lines = |count: usize| first.split_inclusive('\n').take(count).collect::<String>();
    vec![
        doc([1, 1], &lines(1)),
        doc([1, 2], &lines(2)),
        doc([1, 4], &lines(4)),
        doc([0, 0], &refused(21, 0)),
        doc([0, 1], &refused(21, 0)),
        doc([0, 1601], &refused(21, 0)),
        doc([1, 0], &refused(22, 0)),
        doc([1, 1601], &refused(22, 0)),
        doc([4_294_967_295, 0], &refused(22, 0)),
        doc([1, 4_294_967_297], &refused(22, 0)),
        doc([1, 999_999_999_999_999_999], &refused(22, 0)),
    ]
}
