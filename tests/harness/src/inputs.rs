//! Random inputs: each is settled by the seed and its number.

use crate::call::{sheet_size, Call, OnFile, OnRows, LISTED};
use crate::damage::{damage_file, damage_rows, damage_words, file_of};
use crate::lengths::{table_of, Given};
use crate::tables::{self, claim_all, is_cheap, Drawn};
use analyser::before::{narrowed_file, narrowed_words, widened_file, widened_words};
use analyser::lengths::{self, LengthTable, STANDARD};
use analyser::random::Random;
use analyser::table::{
    self, number, Row, FIELDS, GROUP, LINE, MOST_LINES, NODE, OFFSET, PERIOD, WIDTHS,
};

/// The generator of one number's draws.
pub fn generator(seed: u64, number: u64) -> Random {
    let first = Random::new(seed).word();
    Random::new(first.wrapping_add(number.wrapping_mul(0xd134_2543_de82_ef95)))
}

/// What is asked of a table.
#[derive(Clone, Copy, PartialEq)]
enum Task {
    Judge(u64),
    PreciseBound(u64),
    List,
    LoadSheet,
    /// Reading, checking or writing.
    Copy,
}

/// Tables of any groups; or of document 01's seven columns, with each node's number as its group's.
#[derive(Clone, Copy)]
enum Form {
    Any,
    Widened,
}

impl Form {
    fn of_file(self, file: Vec<u8>) -> Vec<u8> {
        match self {
            Form::Any => file,
            Form::Widened => widened_file(&narrowed_file(&file)),
        }
    }

    fn of_words(self, words: Vec<u32>) -> Vec<u32> {
        match self {
            Form::Any => words,
            Form::Widened => widened_words(&narrowed_words(&words)),
        }
    }
}

/// The chance of faults in a table, in percent; and in one whose lengths have some.
const FAULTY: u64 = 45;
const BOTH_FAULTY: u64 = 85;

/// Lengths and a table, each damaged or not, and what is asked of them; or the lengths alone.
pub fn draw(random: &mut Random) -> Call {
    let drawn = tables::draw(random);
    let faults = if random.percent(25) { random.between(1, 3) } else { 0 };
    let given = Given::damaged(random, &drawn.lengths, faults);
    if random.percent(6) {
        return on_lengths(random, given);
    }
    let chance = if faults > 0 { BOTH_FAULTY } else { FAULTY };
    let mut call = on_table(random, drawn, given, chance, Form::Any);
    if random.percent(2) {
        add_lines(random, &mut call);
    }
    call
}

/// As it was drawn before there were lengths, groups and late frames; document 01's lengths are
/// loaded. What was refused for a late frame alone is not drawn.
pub fn draw_before(random: &mut Random) -> Call {
    let mut drawn = tables::draw_by(random, STANDARD);
    for row in &mut drawn.rows {
        row[NODE] = row[GROUP];
        row[OFFSET] %= row[PERIOD];
    }
    loop {
        let call = on_table(random, drawn.clone(), Given::document_01(), FAULTY, Form::Widened);
        if !has_late_frame(&call) {
            return call;
        }
    }
}

/// Whether some line has an offset beyond its period that is no more than the last one.
fn has_late_frame(call: &Call) -> bool {
    let is_late = |period: u64, offset: u64| period <= offset && offset <= 1_000_000;
    match call {
        Call::File(_, file, _) => file.chunks(LINE).any(|line| {
            let column = |column: usize| {
                let start: usize = WIDTHS[..column].iter().sum();
                line.get(start..start + WIDTHS[column]).and_then(number)
            };
            column(PERIOD).zip(column(OFFSET)).is_some_and(|(p, o)| is_late(p, o))
        }),
        Call::Rows(_, words, _) => {
            words.chunks_exact(FIELDS).any(|row| is_late(row[PERIOD].into(), row[OFFSET].into()))
        }
        Call::ReadLengths(..) | Call::WriteLengths(..) => false,
    }
}

/// Makes a file longer than any table, by its own lines.
fn add_lines(random: &mut Random, call: &mut Call) {
    if let Call::File(_, file, _) = call {
        let size = (MOST_LINES + random.between(1, 9) as usize) * LINE;
        *file = file.iter().copied().cycle().take(size).collect();
    }
}

/// Reads the file of lengths, or writes one.
fn on_lengths(random: &mut Random, given: Given) -> Call {
    if random.percent(50) {
        return Call::WriteLengths(given.numbers, area(random, lengths::FILE));
    }
    let table = file_of(&tables::one_of_each(random));
    let size = area(random, sheet_size(&table));
    Call::ReadLengths(given.file, table, size)
}

/// Asks for something of a table, which is damaged with this chance.
fn on_table(random: &mut Random, mut drawn: Drawn, given: Given, chance: u64, form: Form) -> Call {
    let task = task(random, drawn.row, drawn.rows.len());
    if task == Task::List {
        claim_all(random, &drawn.lengths, &mut drawn.rows);
    }
    let faults = if random.percent(chance) { random.between(1, 3) } else { 0 };
    let cheap = (faults == 0).then_some(drawn.row);
    let in_rows = random.below(faults + 1);
    (0..in_rows).for_each(|_| damage_rows(random, &mut drawn.rows));
    if random.percent(50) {
        let mut file = file_of(&drawn.rows);
        (in_rows..faults).for_each(|_| damage_file(random, &mut file));
        let file = form.of_file(file);
        let by = lengths::parse(&given.file).ok();
        let accepted = table::parse(&file).unwrap_or_default();
        let task = affordable(task, &drawn.lengths, by, &accepted, cheap);
        on_file(random, given.file, file, task)
    } else {
        let mut words = drawn.rows.concat();
        (in_rows..faults).for_each(|_| damage_words(random, &mut words));
        let words = form.of_words(words);
        let numbers = table_of(&given.numbers);
        let by = lengths::check(&numbers).map(|()| numbers).ok();
        let accepted = table::check(&words).unwrap_or_default();
        let task = affordable(task, &drawn.lengths, by, &accepted, cheap);
        on_rows(random, given.numbers, words, task)
    }
}

fn on_file(random: &mut Random, lengths: Vec<u8>, file: Vec<u8>, task: Task) -> Call {
    let lines = file.len() / LINE;
    let operation = match task {
        Task::Judge(row) => OnFile::Judge(row),
        Task::PreciseBound(row) => OnFile::PreciseBound(row),
        Task::List => OnFile::List(area(random, lines * LISTED)),
        Task::LoadSheet => OnFile::LoadSheet(area(random, sheet_size(&file))),
        Task::Copy => OnFile::Read(area(random, lines * FIELDS)),
    };
    Call::File(lengths, file, operation)
}

fn on_rows(random: &mut Random, lengths: Vec<u32>, words: Vec<u32>, task: Task) -> Call {
    let lines = words.len() / FIELDS;
    let operation = match task {
        Task::Judge(row) => OnRows::Judge(row),
        Task::PreciseBound(row) => OnRows::PreciseBound(row),
        Task::List | Task::LoadSheet => OnRows::Check,
        Task::Copy => OnRows::Write(area(random, lines * LINE)),
    };
    Call::Rows(lengths, words, operation)
}

fn task(random: &mut Random, row: usize, lines: usize) -> Task {
    let row = row_number(random, row as u64, lines as u64);
    match random.below(14) {
        0..=4 => Task::Judge(row),
        5..=6 => Task::PreciseBound(row),
        7..=8 => Task::List,
        9..=10 => Task::LoadSheet,
        _ => Task::Copy,
    }
}

/// The task, or a cheap one if it is too much work by the lengths that are given. By those that the
/// table was drawn for one row may be known to be cheap. Where lengths are refused, nothing is much.
fn affordable(
    task: Task,
    drawn: &LengthTable,
    by: Option<LengthTable>,
    rows: &[Row],
    cheap: Option<usize>,
) -> Task {
    let Some(by) = by else {
        return task;
    };
    let asked = match task {
        Task::Judge(row) | Task::PreciseBound(row) => rows_at(rows, row),
        Task::List => 0..rows.len(),
        Task::LoadSheet | Task::Copy => 0..0,
    };
    let cheap = cheap.filter(|_| by == *drawn);
    let mut asked = asked.filter(|row| Some(*row) != cheap);
    if asked.all(|row| is_cheap(&by, rows, row)) {
        task
    } else {
        Task::Copy
    }
}

/// The row of a number, or none.
fn rows_at(rows: &[Row], row: u64) -> std::ops::Range<usize> {
    match usize::try_from(row) {
        Ok(row) if row < rows.len() => row..row + 1,
        _ => 0..0,
    }
}

/// Mostly the row itself; otherwise beside the last, or what fewer bits would take for a row.
pub fn row_number(random: &mut Random, row: u64, lines: u64) -> u64 {
    match random.below(20) {
        0 => lines,
        1 => lines - 1,
        2 => random.word(),
        3 => row + (1 << random.between(8, 63)),
        4 => u64::MAX - random.below(2) * row,
        _ => row,
    }
}

/// Mostly at least what is needed; otherwise one short, none or anything below.
pub fn area(random: &mut Random, need: usize) -> usize {
    match random.below(10) {
        0 => 0,
        1 => need.saturating_sub(1),
        2 => random.below(need as u64 + 1) as usize,
        3..=5 => need,
        6 => need + 1,
        _ => need + random.between(1, 100) as usize,
    }
}
