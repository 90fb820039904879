//! Calls under a gap between faults, held against the analyser.

use crate::compare::{copied, with_area, without_area};
use crate::damage::{damage_file, damage_rows, file_of};
use crate::explain::expected;
use crate::explain_inputs::{draw_table, SHOWN};
use crate::inputs::{area, row_number};
use crate::lengths::Given;
use crate::library;
use crate::tables::{is_cheap_under, Drawn};
use analyser::faults::{explain_files, judge_files, list_files, SIGNALLING};
use analyser::judgement::LIMITS;
use analyser::lengths;
use analyser::listing::judge_number;
use analyser::random::{carts, set_claim_under, Random};
use analyser::table;

/// Bytes of a line of the listing.
const LISTED: usize = 31;
/// The greatest gap.
const GAPS: u64 = 1_000_000;

/// What is asked for: a judgement, a case with an area of a size, or a listing likewise.
#[derive(Clone, Copy, Debug, PartialEq)]
pub enum Task {
    Judge(u64),
    Explain(u64, usize),
    List(usize),
}

/// The files of lengths and table, the gap, and what is asked for.
pub struct FaultCall {
    pub lengths: Vec<u8>,
    pub table: Vec<u8>,
    pub gap: u64,
    pub task: Task,
}

/// Gaps that leave much of the bus, little or nothing.
pub fn draw_gap(random: &mut Random) -> u64 {
    match random.below(12) {
        0 => GAPS,
        1 => random.between(1, 300),
        2..=4 => random.between(300, 1000),
        5..=8 => random.between(1000, 10_000),
        _ => random.between(10_000, GAPS),
    }
}

/// A table with claims at or beside its bounds under a gap, in all rows that are not too much work.
pub fn draw_under(random: &mut Random) -> (Drawn, u64) {
    loop {
        let table = if random.percent(8) { faulty_carts } else { draw_table };
        let (mut drawn, gap) = (table(random), draw_gap(random));
        if !is_cheap_under(Some(gap), &drawn.lengths, &drawn.rows, drawn.row) {
            continue;
        }
        for row in 0..drawn.rows.len() {
            if is_cheap_under(Some(gap), &drawn.lengths, &drawn.rows, row) {
                set_claim_under(Some(gap), random, &drawn.lengths, &mut drawn.rows, row, LIMITS);
            }
        }
        return (drawn, gap);
    }
}

/// Carts whose judged frame also waits for a fault.
fn faulty_carts(random: &mut Random) -> Drawn {
    let lengths = crate::lengths::draw(random);
    let fault = SIGNALLING + u64::from(lengths[0][8]);
    loop {
        let groups = random.between(3, 4);
        let rows = carts(random, &lengths, groups, (8, 30), fault);
        if table::check(&rows.concat()).is_ok() {
            let row = rows.len() - 1;
            return Drawn { lengths, rows, row };
        }
    }
}

/// A call on such a table; some have a gap, a row, lengths or a table that is refused.
pub fn draw(random: &mut Random) -> FaultCall {
    let (drawn, mut gap) = draw_under(random);
    if random.percent(20) {
        gap = random.pick(&[0, 0, 1_000_001, 1_000_001, (1 << 32) + 5, u64::MAX]);
    }
    let (lengths, table) = if random.percent(20) {
        damaged(random, &drawn)
    } else {
        (lengths::file_of(&drawn.lengths), file_of(&drawn.rows))
    };
    let row = row_number(random, drawn.row as u64, drawn.rows.len() as u64);
    let task = match random.below(3) {
        0 => Task::Judge(row),
        1 => Task::Explain(row, area(random, SHOWN)),
        _ => Task::List(area(random, LISTED * (table.len() / table::LINE))),
    };
    let task = cheap_task(&lengths, &table, gap, task);
    FaultCall { lengths, table, gap, task }
}

/// The task, or the judgement of another row if it is too much work.
fn cheap_task(lengths: &[u8], table: &[u8], gap: u64, task: Task) -> Task {
    let (Ok(lengths), Ok(rows)) = (lengths::parse(lengths), table::parse(table)) else {
        return task;
    };
    let cheap =
        |row: usize| !(1..=GAPS).contains(&gap) || is_cheap_under(Some(gap), &lengths, &rows, row);
    let is_cheap = match task {
        Task::List(_) => (0..rows.len()).all(cheap),
        Task::Judge(row) | Task::Explain(row, _) => row >= rows.len() as u64 || cheap(row as usize),
    };
    if is_cheap {
        return task;
    }
    let row = (0..rows.len()).find(|row| cheap(*row)).unwrap_or(rows.len());
    Task::Judge(row as u64)
}

/// The files with a fault or two: in the lengths, in the rows' values, or in the notation of the table.
fn damaged(random: &mut Random, drawn: &Drawn) -> (Vec<u8>, Vec<u8>) {
    let (mut lengths, mut rows) = (lengths::file_of(&drawn.lengths), drawn.rows.clone());
    let manner = random.below(3);
    if manner == 0 {
        lengths = Given::damaged(random, &drawn.lengths, 1).file;
    }
    if manner == 1 || random.percent(30) {
        damage_rows(random, &mut rows);
    }
    let mut table = file_of(&rows);
    if manner == 2 {
        damage_file(random, &mut table);
    }
    (lengths, table)
}

impl FaultCall {
    /// The answer, or what differs.
    pub fn compare(&self, random: &mut Random) -> Result<i64, String> {
        let FaultCall { lengths, table, gap, task } = self;
        let (files, gap) = ([&lengths[..], table], *gap);
        match *task {
            Task::Judge(row) => {
                let wanted = judge_number(judge_files(files, row.into(), gap));
                without_area(random, lengths, table, wanted, |lengths, table| {
                    library::judge_faults(lengths, table, row, gap)
                })
            }
            Task::Explain(row, size) => {
                let explained = explain_files(files, row.into(), gap);
                let expect = |area: &mut [u32]| expected(explained, area);
                with_area(random, lengths, table, size, expect, |lengths, table, area| {
                    library::explain_faults(lengths, table, row, gap, area)
                })
            }
            Task::List(size) => {
                let listed = list_files(files, gap).map(String::into_bytes);
                let expect = |area: &mut [u8]| copied(listed, area);
                with_area(random, lengths, table, size, expect, |lengths, table, area| {
                    library::list_faults(lengths, table, gap, area)
                })
            }
        }
    }

    /// All causes to turn the call back, in their order; an area too short only where its size is known.
    pub fn causes(&self) -> Vec<u32> {
        let rows = table::parse(&self.table);
        let refused = [lengths::parse(&self.lengths).err(), rows.as_ref().err().copied()];
        let mut causes: Vec<u32> = refused.iter().flatten().map(|refusal| refusal.number).collect();
        let lines = rows.map_or(0, |rows| rows.len()) as u64;
        let row = match self.task {
            Task::Judge(row) | Task::Explain(row, _) => row,
            Task::List(_) => 0,
        };
        causes.extend((lines > 0 && row >= lines).then_some(9));
        causes.extend((!(1..=GAPS).contains(&self.gap)).then_some(17));
        if let Task::List(size) = self.task {
            causes.extend((size < LISTED * lines as usize).then_some(8));
        }
        causes
    }
}
