//! The load sheet: each node's bus load, and the greatest of them (document 02, request 1).

use crate::lengths::{self, length, LengthTable};
use crate::listing::refusal_line;
use crate::table::{self, Refusal, Row, GROUP, NODE, NODES, PERIOD};

/// The sheet of an input, a file of lengths and then that of a table, or the one line of a refusal.
pub fn load_sheet(input: &[u8]) -> String {
    let (lengths, file) = lengths::split(input);
    sheet_of_files(lengths, file).unwrap_or_else(refusal_line)
}

/// The sheet of a file, by the lengths of another.
pub fn sheet_of_files(lengths: &[u8], file: &[u8]) -> Result<String, Refusal> {
    let lengths = lengths::parse(lengths)?;
    Ok(sheet_of(&lengths, &table::parse(file)?))
}

/// The sheet of accepted rows: a line for each node that has frames, nodes rising, and a last line.
pub fn sheet_of(lengths: &LengthTable, rows: &[Row]) -> String {
    sheet_by(GROUP, lengths, rows)
}

/// The sheet where that starts together which has the same number in a column.
pub fn sheet_by(by: usize, lengths: &LengthTable, rows: &[Row]) -> String {
    let has_frames = |node: &u32| rows.iter().any(|row| row[NODE] == *node);
    let nodes = (1..=NODES).filter(has_frames);
    let loads: Vec<Load> = nodes.map(|node| Load::by(by, lengths, rows, node)).collect();
    let lines: String = loads.iter().map(Load::line).collect();
    let greatest = loads.iter().map(|load| load.quotient).max();
    format!("{lines}{:>3}{:>10}\n", loads.len(), greatest.expect("a node with frames"))
}

/// A node's work × 10000, divided by the hyperperiod of its group.
#[derive(Debug, PartialEq, Eq)]
pub struct Load {
    pub node: u32,
    pub quotient: u64,
    pub remainder: u64,
    pub divisor: u64,
}

impl Load {
    /// That of a node which has frames.
    pub fn by(by: usize, lengths: &LengthTable, rows: &[Row], node: u32) -> Load {
        let of_node: Vec<&Row> = rows.iter().filter(|row| row[NODE] == node).collect();
        let divisor = table::hyperperiod_by(rows, by, of_node[0][by]);
        let work =
            of_node.iter().map(|row| length(lengths, row) * (divisor / u64::from(row[PERIOD])));
        let dividend = work.sum::<u64>() * 10_000;
        Load { node, quotient: dividend / divisor, remainder: dividend % divisor, divisor }
    }

    fn line(&self) -> String {
        let Load { node, quotient, remainder, divisor } = self;
        format!("{node:>3}{quotient:>10}{remainder:>8}{divisor:>8}\n")
    }
}
