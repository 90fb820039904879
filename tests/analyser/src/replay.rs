//! A log that a seed gives (document 02, request 12).

use crate::bus;
use crate::lengths::{self, length, LengthTable};
use crate::listing::refusal_line;
use crate::log::{self, Line, MOST_LINES};
use crate::simulator::Starts;
use crate::table::{self, group_hyperperiod, refuse, Refusal, Row, GROUP};

/// Numbers of 32 bits, held in 64.
#[derive(Clone)]
pub struct Generator(u64);

impl Generator {
    pub fn new(seed: u32) -> Generator {
        Generator(seed.into())
    }

    /// Advances, and gives the number that is held then.
    pub fn draw(&mut self) -> u64 {
        let low = |number: u64| number & 0xffff_ffff;
        self.0 ^= low(self.0 << 13);
        self.0 ^= self.0 >> 17;
        self.0 ^= low(self.0 << 5);
        self.0
    }
}

/// What the command simulate prints; the input is a file of lengths and then that of a table.
pub fn simulate(input: &[u8], seed: u32, lines: u64) -> Vec<u8> {
    let (lengths, table) = lengths::split(input);
    let log = log_of_files(lengths, table, seed, lines);
    log.unwrap_or_else(|refusal| refusal_line(refusal).into_bytes())
}

/// The log: 13, 14, the table's checks, 21, then 22.
pub fn log_of_files(
    lengths: &[u8],
    table: &[u8],
    seed: u32,
    lines: u64,
) -> Result<Vec<u8>, Refusal> {
    let lengths = lengths::parse(lengths)?;
    let rows = table::parse(table)?;
    if seed == 0 {
        return refuse(21, 0);
    }
    if !(1..=MOST_LINES as u64).contains(&lines) {
        return refuse(22, 0);
    }
    Ok(log::file_of(&lines_of(&lengths, &rows, seed, lines as usize)))
}

/// So many lines of accepted rows: first the starts are drawn, then a length for each transmission.
pub fn lines_of(lengths: &LengthTable, rows: &[Row], seed: u32, count: usize) -> Vec<Line> {
    let mut generator = Generator::new(seed);
    let starts = draw_starts(rows, &mut generator);
    bus::log_of(rows, &starts, count, &mut |row| draw_length(lengths, row, &mut generator))
}

/// The starts of the groups that have frames, groups rising; nothing reads the others.
pub fn draw_starts(rows: &[Row], generator: &mut Generator) -> Starts {
    let mut starts = [0; 16];
    for (start, group) in starts.iter_mut().zip(1..) {
        if rows.iter().any(|row| row[GROUP] == group) {
            *start = generator.draw() % group_hyperperiod(rows, group);
        }
    }
    starts
}

/// From 1 to the row's largest length.
pub fn draw_length(lengths: &LengthTable, row: &Row, generator: &mut Generator) -> u64 {
    1 + generator.draw() % length(lengths, row)
}
