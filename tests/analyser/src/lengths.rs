//! The largest lengths of frames: document 01's, and a customer's own (document 02, request 2).

use crate::table::{copy_into, number, refuse, Refusal, Row, KIND, PAYLOAD};

/// Kind 11, then kind 29, by payload bytes.
pub type LengthTable = [[u32; PAYLOADS]; 2];

pub const PAYLOADS: usize = 9;

/// Document 01's lengths.
pub const STANDARD: LengthTable =
    [[55, 65, 75, 85, 95, 105, 115, 125, 135], [80, 90, 100, 110, 120, 130, 140, 150, 160]];

/// Characters of a column, bytes of a line with its line feed, bytes of a file.
pub const WIDTH: usize = 5;
pub const LINE: usize = PAYLOADS * WIDTH + 1;
pub const FILE: usize = 2 * LINE;

/// The largest length of a row's frame.
pub fn length(lengths: &LengthTable, row: &Row) -> u64 {
    lengths[usize::from(row[KIND] == 29)][row[PAYLOAD] as usize].into()
}

/// Reads a file: 13 unless the whole of it is in the notation, then 14.
pub fn parse(file: &[u8]) -> Result<LengthTable, Refusal> {
    let Some(lengths) = numbers(file) else {
        return refuse(13, 0);
    };
    check(&lengths)?;
    Ok(lengths)
}

/// 14 at the first line with a number outside 47..400, or smaller than the one before it.
pub fn check(lengths: &LengthTable) -> Result<(), Refusal> {
    for (numbers, line) in lengths.iter().zip(1..) {
        let within = numbers.iter().all(|number| (47..=400).contains(number));
        if !within || numbers.windows(2).any(|pair| pair[1] < pair[0]) {
            return refuse(14, line);
        }
    }
    Ok(())
}

/// Writes lengths as a file into the bytes lent; gives the number of bytes.
pub fn write_into(lengths: &LengthTable, area: &mut [u8]) -> Result<usize, Refusal> {
    check(lengths)?;
    copy_into(&file_of(lengths), area)?;
    Ok(FILE)
}

/// The file of lengths, not checked; of a longer number the last digits.
pub fn file_of(lengths: &LengthTable) -> Vec<u8> {
    let column = |number: &u32| format!("{:>WIDTH$}", number % 100_000);
    let line = |numbers: &[u32; PAYLOADS]| numbers.iter().map(column).collect::<String>() + "\n";
    lengths.iter().map(line).collect::<String>().into_bytes()
}

/// The two files of one input: the first 92 bytes, and the rest.
pub fn split(input: &[u8]) -> (&[u8], &[u8]) {
    input.split_at(input.len().min(FILE))
}

/// Two lines of nine numbers in columns 5 wide, a line feed after each; whatever their values.
pub fn numbers(file: &[u8]) -> Option<LengthTable> {
    if file.len() != FILE {
        return None;
    }
    let mut lengths = [[0; PAYLOADS]; 2];
    for (numbers, line) in lengths.iter_mut().zip(file.chunks(LINE)) {
        for (length, column) in numbers.iter_mut().zip(line.chunks(WIDTH)) {
            *length = number(column)? as u32;
        }
        if line[LINE - 1] != b'\n' {
            return None;
        }
    }
    Some(lengths)
}
