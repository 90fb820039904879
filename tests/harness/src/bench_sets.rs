//! The tables that are measured, in sets.

use crate::bench_tables::{
    alike, crowded, late_jump, long_windows, many_looks, no_windows, Bursts, Drawing, Filled,
};
use analyser::lengths::{LengthTable, STANDARD};
use analyser::table::{self, Row};

pub struct Table {
    pub name: String,
    pub lengths: LengthTable,
    pub rows: Vec<Row>,
}

/// A name and the rows.
type Named = (String, Vec<Row>);

/// All but the last are by document 01's lengths.
pub fn sets() -> Vec<(&'static str, Vec<Table>)> {
    let sets = [
        ("A realistic table: 12 nodes, periods 2500 to 500000", realistic()),
        ("Drawn as in document 002, appendix A", drawn()),
        ("Most scenarios, none to be ruled out early", many_scenarios()),
        ("Long windows", long_searches()),
        ("Growth with rows of 65536 scenarios", growing_rows()),
        ("Growth with scenarios", growing_scenarios()),
        ("Growth with the window", growing_window()),
        ("Growth with alignments, 16 nodes", growing_alignments()),
        ("Worst found", worst()),
    ];
    let by_standard = |(title, tables)| (title, by_lengths(STANDARD, tables));
    let stretched = ("The realistic table, frames stretched by isolators", stretched());
    sets.into_iter().map(by_standard).chain([stretched]).collect()
}

fn by_lengths(lengths: LengthTable, tables: Vec<Named>) -> Vec<Table> {
    let table = |(name, rows)| Table { name, lengths, rows };
    tables.into_iter().map(table).collect()
}

/// Each length longer by ten ticks, or by a half.
fn stretched() -> Vec<Table> {
    let longer = STANDARD.map(|line| line.map(|length| length + 10));
    let by_half = STANDARD.map(|line| line.map(|length| length * 3 / 2));
    let named = |(how, lengths)| {
        let tables = by_lengths(lengths, realistic()).into_iter();
        tables.map(move |table| Table { name: format!("{how}, {}", table.name), ..table })
    };
    [("10 longer", longer), ("by half", by_half)].into_iter().flat_map(named).collect()
}

fn realistic() -> Vec<Named> {
    let table = |(claims, deadlines)| {
        let drawing = Drawing { seed: 2, nodes: 12, unit: 500, deadlines };
        (format!("offsets in ms, claims {claims}"), drawing.rows())
    };
    [("periods", true), ("1", false)].map(table).into()
}

fn drawn() -> Vec<Named> {
    let mut tables = Vec::new();
    for (seed, nodes) in [(3, 7), (4, 11), (5, 15)] {
        for (unit, offsets) in [(2500, "in steps"), (1, "fine")] {
            for (deadlines, claims) in [(true, "periods"), (false, "1")] {
                let drawing = Drawing { seed, nodes, unit, deadlines };
                let name = format!("{nodes} nodes, offsets {offsets}, claims {claims}");
                tables.push((name, drawing.rows()));
            }
        }
    }
    tables
}

fn many_scenarios() -> Vec<Named> {
    vec![
        ("16 nodes x 2".into(), alike(&[2; 16], 30_000, 10, 23)),
        ("4 nodes x 16".into(), alike(&[16; 4], 60_000, 17, 40)),
        ("255 x 250".into(), alike(&[255, 250], 3920, 7, 15)),
    ]
}

const LONGEST: Filled = Filled { second: 1199, gap: 371_000, judged: 1_000_000 };
const MANY_INSTANCES: Filled = Filled { second: 1366, gap: 30_000, judged: 4000 };

fn long_searches() -> Vec<Named> {
    vec![
        ("one scenario a row".into(), long_windows()),
        ("no window up to 1000000".into(), no_windows()),
        ("255 x 128 x 2 scenarios".into(), LONGEST.rows([255, 128])),
        ("192 instances, 255 x 128 x 2".into(), MANY_INSTANCES.rows([255, 128])),
    ]
}

fn growing_rows() -> Vec<Named> {
    let table = |judged| (format!("{judged} judged"), alike(&[2; 16], 30_000, 10, judged));
    [1, 4, 16].map(table).into()
}

fn growing_scenarios() -> Vec<Named> {
    let table = |counts: [u32; 2]| {
        (format!("{} x {} x 2 scenarios", counts[0], counts[1]), LONGEST.rows(counts))
    };
    [[4, 4], [16, 16], [128, 128]].map(table).into()
}

fn growing_window() -> Vec<Named> {
    let table = |(second, gap)| {
        let filled = Filled { second, gap, judged: 1_000_000 };
        (format!("periods 62 and {second}"), filled.rows([64, 64]))
    };
    [(1250, 24_000), (1220, 52_000), (1205, 130_000), (1199, 371_000)].map(table).into()
}

fn growing_alignments() -> Vec<Named> {
    let table = |(alignments, period, load): (u32, u32, &str)| {
        let rows = crowded(16, 8, period, alignments).rows;
        (format!("{alignments} alignments, load {load}"), rows)
    };
    [
        (16, 3950, "0.6"),
        (64, 3950, "0.6"),
        (256, 3950, "0.6"),
        (16, 2665, "near 1"),
        (64, 2270, "near 1"),
        (256, 2186, "near 1"),
    ]
    .map(table)
    .into()
}

fn worst() -> Vec<Named> {
    let built = [
        ("12650 instances, 256 alignments a node".into(), many_looks()),
        ("255 own alignments, a late jump".into(), late_jump()),
        ("starts that serve no other scenario".into(), BURSTS.rows()),
        ("11 bursts, each after the one before".into(), NESTED.rows()),
        ("5543 instances, a late burst".into(), LATE_BURST.rows()),
    ];
    built.into_iter().chain(FILES.map(read)).collect()
}

fn read((name, file): (&str, &[u8])) -> Named {
    (name.into(), table::parse(file).expect("an accepted table"))
}

/// Tables that a search found: windows above 800000, a load near 1, and thousands of instances of
/// the judged frame.
const FILES: [(&str, &[u8]); 9] = [
    ("255 own alignments, 241 of another node", include_bytes!("../tables/own_255_other_241.txt")),
    (
        "255 own alignments, 239 of four others",
        include_bytes!("../tables/own_255_four_others_239.txt"),
    ),
    (
        "206 own alignments, more stairs than kept",
        include_bytes!("../tables/own_206_many_stairs.txt"),
    ),
    (
        "no window with all open, 4 other nodes",
        include_bytes!("../tables/no_window_all_open_4_others.txt"),
    ),
    (
        "no window with all open, 5 other nodes",
        include_bytes!("../tables/no_window_all_open_5_others.txt"),
    ),
    ("own alignments, each above the one before", include_bytes!("../tables/rising_8_others.txt")),
    ("the same, 13 other nodes", include_bytes!("../tables/rising_13_others.txt")),
    ("54289 scenarios, two nodes of 30 frames", include_bytes!("../tables/scenarios_54289.txt")),
    ("64009 scenarios, nodes of 43 and 19 frames", include_bytes!("../tables/scenarios_64009.txt")),
];

const BURSTS: Bursts = Bursts {
    first: (0, 62),
    second: (7, 1300),
    bursts: &[
        (26_250, "888387381873"),
        (269_281, "886388820434210"),
        (564_299, "75"),
        (805_537, "40"),
        (819_027, "1"),
        (834_925, "888"),
        (888_122, "88836361103"),
    ],
    judged: (14, 0, 41_640),
    alignments: [62, 151],
};

const NESTED: Bursts = Bursts {
    first: (2, 78),
    second: (4, 2656),
    bursts: &[
        (0, "20"),
        (70_029, "30"),
        (145_283, "40"),
        (223_267, "50"),
        (306_476, "60"),
        (392_415, "70"),
        (483_504, "87"),
        (603_843, "80"),
        (697_662, "81"),
        (794_211, "82"),
        (895_985, "83"),
    ],
    judged: (2, 0, 100_000),
    alignments: [37, 161],
};

const LATE_BURST: Bursts = Bursts {
    first: (2, 162),
    second: (6, 539),
    bursts: &[(0, "62000754176465034573131862"), (302_225, "3781811356836661265451634552716")],
    judged: (1, 0, 173),
    alignments: [255, 128],
};
