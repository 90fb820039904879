//! Calls of the library: an operation and its input.

use crate::lengths::table_of;
use analyser::lengths::{self, LengthTable, STANDARD};
use analyser::load_sheet::sheet_of;
use analyser::table::{self, Refusal, Row, FIELDS, LINE};
use std::fmt;

/// Bytes of a line of the listing.
pub const LISTED: usize = 31;

/// The operations of the library.
#[derive(Clone, Copy, PartialEq, Eq, PartialOrd, Ord)]
pub enum Operation {
    JudgeFile,
    BoundFile,
    Read,
    List,
    LoadSheet,
    JudgeRows,
    BoundRows,
    Check,
    Write,
    ReadLengths,
    WriteLengths,
}

impl Operation {
    pub const ALL: [Operation; 11] = {
        use Operation::*;
        [
            JudgeFile,
            BoundFile,
            Read,
            List,
            LoadSheet,
            JudgeRows,
            BoundRows,
            Check,
            Write,
            ReadLengths,
            WriteLengths,
        ]
    };

    /// Whether the answer is a judgement, unless it is a refusal.
    pub fn judges(self) -> bool {
        matches!(self, Operation::JudgeFile | Operation::JudgeRows)
    }

    /// Whether it is of the lengths alone.
    pub fn of_lengths(self) -> bool {
        matches!(self, Operation::ReadLengths | Operation::WriteLengths)
    }
}

impl fmt::Display for Operation {
    fn fmt(&self, out: &mut fmt::Formatter) -> fmt::Result {
        let name = match self {
            Operation::JudgeFile => "judge file",
            Operation::BoundFile => "bound file",
            Operation::Read => "read",
            Operation::List => "list",
            Operation::LoadSheet => "load sheet",
            Operation::JudgeRows => "judge rows",
            Operation::BoundRows => "bound rows",
            Operation::Check => "check",
            Operation::Write => "write",
            Operation::ReadLengths => "read len.",
            Operation::WriteLengths => "write len.",
        };
        out.pad(name)
    }
}

/// An operation on a file, with the row asked for or the size of the area lent.
#[derive(Clone, Copy, Debug)]
pub enum OnFile {
    Judge(u64),
    PreciseBound(u64),
    Read(usize),
    List(usize),
    LoadSheet(usize),
}

/// An operation on rows in memory, likewise.
#[derive(Clone, Copy, Debug)]
pub enum OnRows {
    Judge(u64),
    PreciseBound(u64),
    Check,
    Write(usize),
}

pub enum Call {
    /// The lengths' file and the table's. Reading a table takes no lengths.
    File(Vec<u8>, Vec<u8>, OnFile),
    /// The lengths' numbers and the table's. Checking and writing rows take no lengths.
    Rows(Vec<u32>, Vec<u32>, OnRows),
    /// The lengths' file; a good table, whose load sheet shows the lengths; the size of the area lent.
    ReadLengths(Vec<u8>, Vec<u8>, usize),
    /// The lengths' numbers, and the size of the area lent.
    WriteLengths(Vec<u32>, usize),
}

impl Call {
    /// The input as bytes, the lengths first; words have their least byte first.
    pub fn bytes(&self) -> Vec<u8> {
        let of_words = |words: &[u32]| words.iter().flat_map(|word| word.to_le_bytes()).collect();
        match self {
            Call::File(_, file, OnFile::Read(_)) => file.clone(),
            Call::File(lengths, file, _) | Call::ReadLengths(lengths, file, _) => {
                [&lengths[..], file].concat()
            }
            Call::Rows(_, words, OnRows::Check | OnRows::Write(_)) => of_words(words),
            Call::Rows(lengths, words, _) => of_words(&[&lengths[..], words].concat()),
            Call::WriteLengths(lengths, _) => of_words(lengths),
        }
    }

    pub fn operation(&self) -> Operation {
        match self {
            Call::File(_, _, OnFile::Judge(_)) => Operation::JudgeFile,
            Call::File(_, _, OnFile::PreciseBound(_)) => Operation::BoundFile,
            Call::File(_, _, OnFile::Read(_)) => Operation::Read,
            Call::File(_, _, OnFile::List(_)) => Operation::List,
            Call::File(_, _, OnFile::LoadSheet(_)) => Operation::LoadSheet,
            Call::Rows(_, _, OnRows::Judge(_)) => Operation::JudgeRows,
            Call::Rows(_, _, OnRows::PreciseBound(_)) => Operation::BoundRows,
            Call::Rows(_, _, OnRows::Check) => Operation::Check,
            Call::Rows(_, _, OnRows::Write(_)) => Operation::Write,
            Call::ReadLengths(..) => Operation::ReadLengths,
            Call::WriteLengths(..) => Operation::WriteLengths,
        }
    }

    fn takes_lengths(&self) -> bool {
        !matches!(
            self,
            Call::File(_, _, OnFile::Read(_)) | Call::Rows(_, _, OnRows::Check | OnRows::Write(_))
        )
    }

    /// The lengths that are accepted, or why they are not; none where the operation takes none.
    pub fn lengths(&self) -> Option<Result<LengthTable, Refusal>> {
        self.takes_lengths().then(|| match self {
            Call::File(file, ..) | Call::ReadLengths(file, ..) => lengths::parse(file),
            Call::Rows(numbers, ..) | Call::WriteLengths(numbers, _) => {
                let lengths = table_of(numbers);
                lengths::check(&lengths).map(|()| lengths)
            }
        })
    }

    /// The lengths in their notation, within their limits or not.
    pub fn numbers(&self) -> Option<LengthTable> {
        match self {
            _ if !self.takes_lengths() => None,
            Call::File(file, ..) | Call::ReadLengths(file, ..) => lengths::numbers(file),
            Call::Rows(numbers, ..) | Call::WriteLengths(numbers, _) => Some(table_of(numbers)),
        }
    }

    /// Whole lines of the input's table; none where the lengths are alone.
    pub fn lines(&self) -> usize {
        match self {
            Call::File(_, file, _) => file.len() / LINE,
            Call::Rows(_, words, _) => words.len() / FIELDS,
            Call::ReadLengths(..) | Call::WriteLengths(..) => 0,
        }
    }

    /// The rows of the input; none of a file that is refused, or where the lengths are alone.
    pub fn rows(&self) -> Vec<Row> {
        match self {
            Call::File(_, file, _) => table::parse(file).unwrap_or_default(),
            Call::Rows(_, words, _) => {
                let rows = words.chunks_exact(FIELDS);
                rows.map(|row| row.try_into().expect("a row's words")).collect()
            }
            Call::ReadLengths(..) | Call::WriteLengths(..) => Vec::new(),
        }
    }

    /// The cause against the table alone; none where there is none.
    pub fn table_refusal(&self) -> Option<Refusal> {
        match self {
            Call::File(_, file, _) => table::parse(file).err(),
            Call::Rows(_, words, _) => table::check(words).err(),
            Call::ReadLengths(..) | Call::WriteLengths(..) => None,
        }
    }

    /// The row asked for.
    pub fn row(&self) -> Option<u64> {
        match self {
            Call::File(_, _, OnFile::Judge(row) | OnFile::PreciseBound(row)) => Some(*row),
            Call::Rows(_, _, OnRows::Judge(row) | OnRows::PreciseBound(row)) => Some(*row),
            _ => None,
        }
    }

    /// The size of the area lent, and what the result takes of it.
    pub fn room(&self) -> Option<(usize, usize)> {
        match self {
            Call::File(_, _, OnFile::Read(size)) => Some((*size, FIELDS * self.lines())),
            Call::File(_, _, OnFile::List(size)) => Some((*size, LISTED * self.lines())),
            Call::File(_, file, OnFile::LoadSheet(size)) | Call::ReadLengths(_, file, size) => {
                Some((*size, sheet_size(file)))
            }
            Call::Rows(_, _, OnRows::Write(size)) => Some((*size, LINE * self.lines())),
            Call::WriteLengths(_, size) => Some((*size, lengths::FILE)),
            _ => None,
        }
    }
}

/// What the load sheet of a file takes, whatever the lengths; nothing, if the file is refused.
pub fn sheet_size(file: &[u8]) -> usize {
    table::parse(file).map_or(0, |rows| sheet_of(&STANDARD, &rows).len())
}

impl fmt::Display for Call {
    fn fmt(&self, out: &mut fmt::Formatter) -> fmt::Result {
        match self {
            Call::File(lengths, file, operation) => {
                write!(out, "{operation:?} on lengths of {} bytes", lengths.len())?;
                write!(out, " and a file of {} bytes", file.len())
            }
            Call::Rows(lengths, words, operation) => {
                write!(out, "{operation:?} on {} lengths and {} words", lengths.len(), words.len())
            }
            Call::ReadLengths(lengths, _, size) => {
                write!(out, "ReadLengths({size}) on lengths of {} bytes", lengths.len())
            }
            Call::WriteLengths(lengths, size) => {
                write!(out, "WriteLengths({size}) on {} lengths", lengths.len())
            }
        }
    }
}
