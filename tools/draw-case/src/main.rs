//! Draws the schedule of the case that breaks a row's claim, as an SVG picture.

mod axis;
#[cfg(test)]
mod bus_by_ticks;
#[cfg(test)]
mod drawn;
mod library;
mod panel;
mod picture;
mod schedule;
mod svg;
mod table;

use library::Explained;
use schedule::Schedule;
use std::io::{self, Read, Write};
use std::process::ExitCode;

const USAGE: &str = "usage: draw-case ROW < lengths and table > picture.svg";

fn main() -> ExitCode {
    match run() {
        Ok(()) => ExitCode::SUCCESS,
        Err(error) => {
            eprintln!("draw-case: {error}");
            ExitCode::FAILURE
        }
    }
}

fn run() -> io::Result<()> {
    let words: Vec<String> = std::env::args().skip(1).collect();
    let [row] = &words[..] else {
        return Err(io::Error::other(USAGE));
    };
    let row: u64 = row.parse().map_err(|_| io::Error::other(USAGE))?;
    let mut input = Vec::new();
    io::stdin().read_to_end(&mut input)?;
    io::stdout().write_all(picture_of(&input, row).map_err(io::Error::other)?.as_bytes())
}

/// The picture of a row's case, or why there is none.
fn picture_of(input: &[u8], row: u64) -> Result<String, String> {
    let (lengths, table) = input.split_at(input.len().min(table::LENGTHS));
    let case = match library::explain(lengths, table, row) {
        Explained::Refused { number, place } => {
            return Err(format!("refused: {number} at {place}"))
        }
        Explained::NoCase { verdict } => return Err(format!("verdict {verdict} has no case")),
        Explained::Case(case) => case,
    };
    let frames = table::frames(lengths, table).ok_or("the table cannot be read")?;
    Ok(picture::draw(&Schedule::new(&frames, row as usize, &case)))
}
