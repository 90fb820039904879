//! Bus logs: reading and writing them (document 02, request 10).

use crate::table::{number, refuse, Refusal};

pub const FIELDS: usize = 5;
pub const START: usize = 0;
pub const IDENTIFIER: usize = 1;
pub const KIND: usize = 2;
pub const QUEUEING: usize = 3;
pub const LENGTH: usize = 4;

pub const WIDTHS: [usize; FIELDS] = [11, 10, 3, 11, 4];
/// Bytes of a line, its line feed included.
pub const LINE: usize = 40;
pub const MOST_LINES: usize = 1600;
/// The greatest start and the greatest queueing.
pub const LAST_TICK: u64 = 9_999_999_999;

/// A line: start, identifier, kind, queueing, length.
pub type Line = [u64; FIELDS];

/// The tick at which a line's transmission ends.
pub fn end(line: &Line) -> u64 {
    line[START] + line[LENGTH]
}

/// The end of the last line; 0 in an empty log.
pub fn last_end(lines: &[Line]) -> u64 {
    lines.last().map_or(0, end)
}

/// Reads a log: 18 for its size, then at the first line that breaks the notation or the limits.
pub fn parse(log: &[u8]) -> Result<Vec<Line>, Refusal> {
    if log.len() % LINE != 0 || log.len() > MOST_LINES * LINE {
        return refuse(18, 0);
    }
    let mut lines = Vec::new();
    for (place, bytes) in (1..).zip(log.chunks(LINE)) {
        match parse_line(bytes) {
            Some(line) => lines.push(line),
            None => return refuse(18, place),
        }
    }
    Ok(lines)
}

fn parse_line(bytes: &[u8]) -> Option<Line> {
    let mut line = [0; FIELDS];
    let mut at = 0;
    for (value, width) in line.iter_mut().zip(WIDTHS) {
        *value = number(&bytes[at..at + width])?;
        at += width;
    }
    let within = line[START] <= LAST_TICK && line[QUEUEING] <= LAST_TICK;
    (bytes[at] == b'\n' && within).then_some(line)
}

/// The log of lines, not checked.
pub fn file_of(lines: &[Line]) -> Vec<u8> {
    let mut log = String::new();
    for line in lines {
        for (value, width) in line.iter().zip(WIDTHS) {
            log.push_str(&format!("{value:>width$}"));
        }
        log.push('\n');
    }
    log.into_bytes()
}
