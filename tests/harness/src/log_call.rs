//! Calls about logs, held against the analyser.

use crate::compare::{copied, same_answer, same_area, unchanged};
use crate::lent::{filled, Element, Lent};
use crate::library::{self, Files};
use analyser::busiest::sheet_of_files;
use analyser::lengths;
use analyser::log::{self, last_end};
use analyser::log_check::{check_files, check_lines, follow};
use analyser::random::Random;
use analyser::replay::log_of_files;
use analyser::table;
use std::fmt;

/// What is asked for, beside the area's size.
#[derive(Clone, Copy, Debug)]
pub enum Task {
    Check,
    /// The width.
    Busiest(u64),
    /// The seed and the lines wanted.
    Simulate(u32, u64),
}

/// The starts shown.
pub const STARTS: usize = 16;

/// Bytes of the first line of a sheet, and of each other.
pub const FIRST: usize = 23;
pub const SEEN: usize = 42;

/// The files of lengths and table, the log where one is asked about, and the size of the area lent.
pub struct LogCall {
    pub lengths: Vec<u8>,
    pub table: Vec<u8>,
    pub log: Vec<u8>,
    pub task: Task,
    pub size: usize,
}

/// What is left in the area lent.
pub enum Left {
    Starts(Vec<u64>),
    Bytes(Vec<u8>),
}

impl LogCall {
    /// The answer and what the area holds then, or what differs.
    pub fn compare(&self, random: &mut Random) -> Result<(i64, Left), String> {
        let LogCall { lengths, table, log, .. } = self;
        match self.task {
            Task::Check => {
                let starts = check_files(lengths, table, log).map(|starts| starts.to_vec());
                let call =
                    |files: &mut Files, area: &mut Lent<u64>| library::check_log(files, area);
                let (answer, area) = self.with_area(random, |area| copied(starts, area), call)?;
                Ok((answer, Left::Starts(area)))
            }
            Task::Busiest(width) => {
                let sheet = sheet_of_files(lengths, table, log, width).map(String::into_bytes);
                let call =
                    |files: &mut Files, area: &mut Lent<u8>| library::busiest(files, width, area);
                let (answer, area) = self.with_area(random, |area| copied(sheet, area), call)?;
                Ok((answer, Left::Bytes(area)))
            }
            Task::Simulate(seed, lines) => {
                let text = log_of_files(lengths, table, seed, lines);
                let call = |files: &mut Files, area: &mut Lent<u8>| {
                    library::simulate(files, seed, lines, area)
                };
                let (answer, area) = self.with_area(random, |area| copied(text, area), call)?;
                Ok((answer, Left::Bytes(area)))
            }
        }
    }

    /// Calls with an area, which ends as the analyser has it; all files stay.
    fn with_area<O: Element>(
        &self,
        random: &mut Random,
        expect: impl FnOnce(&mut [O]) -> i64,
        call: impl FnOnce(&mut Files, &mut Lent<O>) -> i64,
    ) -> Result<(i64, Vec<O>), String> {
        let mut wanted: Vec<O> = filled(random, self.size);
        let mut area = Lent::new(random, &wanted);
        let mut files = Files {
            lengths: Lent::new(random, &self.lengths),
            table: Lent::new(random, &self.table),
            log: Lent::new(random, &self.log),
        };
        let answer = call(&mut files, &mut area);
        same_answer(answer, expect(&mut wanted))?;
        unchanged("lengths' area", &files.lengths)?;
        unchanged("table", &files.table)?;
        unchanged("log", &files.log)?;
        if !area.guards_hold() {
            return Err("memory around the area is changed".into());
        }
        same_area(area.contents(), &wanted)?;
        Ok((answer, wanted))
    }

    /// All causes to turn the call back, in their order, each looked at as if those before it were not.
    /// Only 19 needs lengths and a table, and is asked of the lines before a broken one.
    pub fn causes(&self) -> Vec<u32> {
        let lengths = lengths::parse(&self.lengths);
        let rows = table::parse(&self.table);
        let mut causes: Vec<u32> =
            lengths.as_ref().err().map(|refusal| refusal.number).into_iter().collect();
        causes.extend(rows.as_ref().err().map(|refusal| refusal.number));
        match self.task {
            Task::Simulate(seed, lines) => {
                causes.extend((seed == 0).then_some(21));
                causes.extend((!(1..=1600).contains(&lines)).then_some(22));
            }
            Task::Check | Task::Busiest(_) => {
                let broken = log::parse(&self.log).err();
                causes.extend(broken.map(|refusal| refusal.number));
                // Whole lines before the broken one.
                let good = broken.map_or(self.log.len(), |refusal| {
                    refusal.place.saturating_sub(1) as usize * log::LINE
                });
                let lines = log::parse(&self.log[..good]).unwrap_or_default();
                if let (Ok(lengths), Ok(rows)) = (&lengths, &rows) {
                    let refused = check_lines(lengths, rows, &lines).err();
                    causes.extend(refused.map(|refusal| refusal.number));
                }
                if let Task::Busiest(width) = self.task {
                    causes.extend((width == 0 || width > last_end(&lines)).then_some(20));
                }
            }
        }
        causes.extend((self.size < self.need(rows.map_or(1, |rows| rows.len()))).then_some(8));
        causes
    }

    /// Whether, in a log that is refused with 19 at a line, an earlier one is already not as the bus rule
    /// has it with the starts that the lines up to that one give.
    pub fn departs_before(&self, place: usize) -> bool {
        let (lengths, rows) = (lengths::parse(&self.lengths), table::parse(&self.table));
        let (Ok(lengths), Ok(rows), Ok(lines)) = (lengths, rows, log::parse(&self.log)) else {
            return false;
        };
        follow(&lengths, &rows, &lines[..place]).is_err_and(|line| line < place)
    }

    /// What the result of a table of so many rows takes of the area.
    fn need(&self, rows: usize) -> usize {
        match self.task {
            Task::Check => STARTS,
            Task::Busiest(_) => FIRST + SEEN * rows,
            Task::Simulate(_, lines) => lines.min(1600) as usize * log::LINE,
        }
    }

    /// Lengths and table as one input.
    pub fn input(&self) -> Vec<u8> {
        [&self.lengths[..], &self.table].concat()
    }
}

impl fmt::Display for LogCall {
    fn fmt(&self, out: &mut fmt::Formatter) -> fmt::Result {
        let LogCall { lengths, table, log, task, size } = self;
        write!(out, "{task:?} on lengths of {} bytes, a table of {}", lengths.len(), table.len())?;
        write!(out, " and a log of {}, with an area of {size}", log.len())
    }
}
