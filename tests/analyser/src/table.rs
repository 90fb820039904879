//! Frame tables: reading a file, checking rows in memory, writing a file.

pub const FIELDS: usize = 8;
pub const NODE: usize = 0;
pub const GROUP: usize = 1;
pub const IDENTIFIER: usize = 2;
pub const KIND: usize = 3;
pub const PAYLOAD: usize = 4;
pub const PERIOD: usize = 5;
pub const OFFSET: usize = 6;
pub const CLAIM: usize = 7;

pub const WIDTHS: [usize; FIELDS] = [3, 3, 10, 3, 2, 8, 8, 8];
/// Bytes of a line, its line feed included.
pub const LINE: usize = 46;
pub const MOST_LINES: usize = 64;
pub const NODES: u32 = 16;
pub const GROUPS: u32 = 16;
const MOST_HYPERPERIOD: u64 = 1_000_000;
const MOST_QUEUEINGS: u64 = 256;

/// A line in memory: node, group, identifier, kind, payload, period, offset, claim.
pub type Row = [u32; FIELDS];

#[derive(Clone, Copy, Debug, PartialEq, Eq)]
pub struct Refusal {
    pub number: u32,
    pub place: u32,
}

pub fn refuse<T>(number: u32, place: u32) -> Result<T, Refusal> {
    Err(Refusal { number, place })
}

/// Reads a file: 1 (length), 2, then line by line 1, 3, 4, 5, 15, then 6 and 7.
pub fn parse(file: &[u8]) -> Result<Vec<Row>, Refusal> {
    if file.is_empty() || file.len() % LINE != 0 {
        return refuse(1, 0);
    }
    if file.len() / LINE > MOST_LINES {
        return refuse(2, 0);
    }
    let mut rows = Vec::new();
    for line in file.chunks(LINE) {
        add_line(&mut rows, parse_line(line))?;
    }
    check_groups(&rows, GROUP)?;
    Ok(rows)
}

/// Checks rows in memory: 10, then line by line 4, 5 and 15, then 6 and 7.
pub fn check(words: &[u32]) -> Result<Vec<Row>, Refusal> {
    if words.is_empty() || words.len() % FIELDS != 0 || words.len() > MOST_LINES * FIELDS {
        return refuse(10, 0);
    }
    let mut rows = Vec::new();
    for words in words.chunks(FIELDS) {
        add_line(&mut rows, check_line(words))?;
    }
    check_groups(&rows, GROUP)?;
    Ok(rows)
}

/// Reads a file into the words lent; gives the number of lines.
pub fn read_into(file: &[u8], area: &mut [u32]) -> Result<usize, Refusal> {
    let rows = parse(file)?;
    copy_into(&rows.concat(), area)?;
    Ok(rows.len())
}

/// Writes rows as a file into the bytes lent; gives the number of lines.
pub fn write_into(words: &[u32], area: &mut [u8]) -> Result<usize, Refusal> {
    let rows = check(words)?;
    copy_into(&file_of(&rows), area)?;
    Ok(rows.len())
}

/// The file of rows, not checked.
pub fn file_of(rows: &[Row]) -> Vec<u8> {
    let mut file = String::new();
    for row in rows {
        for (value, width) in row.iter().zip(WIDTHS) {
            file.push_str(&format!("{value:>width$}"));
        }
        file.push('\n');
    }
    file.into_bytes()
}

/// The room rule, which comes last.
pub fn copy_into<T: Copy>(result: &[T], area: &mut [T]) -> Result<(), Refusal> {
    if area.len() < result.len() {
        return refuse(8, 0);
    }
    area[..result.len()].copy_from_slice(result);
    Ok(())
}

/// Adds a line that was found good by itself, or refuses at its place.
fn add_line(rows: &mut Vec<Row>, line: Result<Row, u32>) -> Result<(), Refusal> {
    let place = rows.len() as u32 + 1;
    match line {
        Err(number) => refuse(number, place),
        Ok(row) if rows.iter().any(|earlier| same_frame(earlier, &row)) => refuse(5, place),
        Ok(row) if rows.iter().any(|earlier| in_two_groups(earlier, &row)) => refuse(15, place),
        Ok(row) => {
            rows.push(row);
            Ok(())
        }
    }
}

fn same_frame(one: &Row, other: &Row) -> bool {
    one[KIND] == other[KIND] && one[IDENTIFIER] == other[IDENTIFIER]
}

/// The same node, in another group.
fn in_two_groups(one: &Row, other: &Row) -> bool {
    one[NODE] == other[NODE] && one[GROUP] != other[GROUP]
}

/// A line of a file: its line feed, then in each column 3 before 4.
fn parse_line(line: &[u8]) -> Result<Row, u32> {
    if line[LINE - 1] != b'\n' {
        return Err(1);
    }
    let mut fields = [0; FIELDS];
    let mut at = 0;
    for column in 0..FIELDS {
        let end = at + WIDTHS[column];
        fields[column] = number(&line[at..end]).ok_or(3u32)?;
        if !within_limits(column, &fields) {
            return Err(4);
        }
        at = end;
    }
    Ok(fields.map(|value| value as u32))
}

fn check_line(words: &[u32]) -> Result<Row, u32> {
    let fields: [u64; FIELDS] = std::array::from_fn(|column| u64::from(words[column]));
    if (0..FIELDS).all(|column| within_limits(column, &fields)) {
        Ok(fields.map(|value| value as u32))
    } else {
        Err(4)
    }
}

/// Spaces, then at least one digit, no leading zero except in 0 itself.
pub fn number(column: &[u8]) -> Option<u64> {
    let spaces = column.iter().take_while(|&&byte| byte == b' ').count();
    let digits = &column[spaces..];
    let only_digits = digits.iter().all(u8::is_ascii_digit);
    let leading_zero = digits.len() > 1 && digits[0] == b'0';
    if digits.is_empty() || !only_digits || leading_zero {
        return None;
    }
    let add = |value: u64, digit: &u8| value * 10 + u64::from(digit - b'0');
    Some(digits.iter().fold(0, add))
}

/// The limits of a column; those of the identifier are judged at the kind.
fn within_limits(column: usize, fields: &[u64; FIELDS]) -> bool {
    let value = fields[column];
    match column {
        NODE => (1..=u64::from(NODES)).contains(&value),
        GROUP => (1..=u64::from(GROUPS)).contains(&value),
        KIND if value == 11 => fields[IDENTIFIER] <= 2047,
        KIND => value == 29 && fields[IDENTIFIER] <= 536_870_911,
        PAYLOAD => value <= 8,
        PERIOD | CLAIM => (1..=1_000_000).contains(&value),
        OFFSET => value <= 1_000_000,
        _ => true,
    }
}

/// Groups rising, 6 before 7 in each. What starts together has the same number in the column `by`:
/// that of the group, or before there were groups that of the node.
pub fn check_groups(rows: &[Row], by: usize) -> Result<(), Refusal> {
    for group in 1..=GROUPS {
        let periods = periods_of(rows, by, group);
        let hyperperiod = hyperperiod(&periods);
        if hyperperiod > MOST_HYPERPERIOD {
            return refuse(6, group);
        }
        let queueings: u64 = periods.iter().map(|period| hyperperiod / period).sum();
        if queueings > MOST_QUEUEINGS {
            return refuse(7, group);
        }
    }
    Ok(())
}

fn periods_of(rows: &[Row], by: usize, group: u32) -> Vec<u64> {
    let of_group = rows.iter().filter(|row| row[by] == group);
    of_group.map(|row| u64::from(row[PERIOD])).collect()
}

/// The least common multiple, or the first partial one that is too great.
fn hyperperiod(periods: &[u64]) -> u64 {
    let mut multiple = 1;
    for period in periods {
        multiple = multiple / common_divisor(multiple, *period) * period;
        if multiple > MOST_HYPERPERIOD {
            break;
        }
    }
    multiple
}

fn common_divisor(a: u64, b: u64) -> u64 {
    if b == 0 {
        a
    } else {
        common_divisor(b, a % b)
    }
}

/// The hyperperiod of a group of accepted rows.
pub fn group_hyperperiod(rows: &[Row], group: u32) -> u64 {
    hyperperiod_by(rows, GROUP, group)
}

/// That of what starts together by a column.
pub fn hyperperiod_by(rows: &[Row], by: usize, number: u32) -> u64 {
    hyperperiod(&periods_of(rows, by, number))
}
