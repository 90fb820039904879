//! Damage to tables: each cause of a refusal, alone or with others.

use crate::lent::{filled, Element};
use analyser::random::Random;
use analyser::table::{
    Row, CLAIM, FIELDS, GROUP, GROUPS, IDENTIFIER, KIND, LINE, MOST_LINES, NODE, OFFSET, PERIOD,
    WIDTHS,
};

/// For each column the limits, what stands beside them, and what fewer bits would take for them.
const AT_LIMITS: [&[u32]; FIELDS] = [
    &[0, 1, 16, 17, 257],
    &[0, 1, 16, 17, 257],
    &[0, 2047, 2048, 536_870_911, 536_870_912, u32::MAX],
    &[0, 10, 11, 12, 28, 29, 30, 267],
    &[0, 8, 9, 256],
    &[0, 1, 1_000_000, 1_000_001, 16_777_217],
    &[0, 999_999, 1_000_000, 1_000_001],
    &[0, 1, 1_000_000, 1_000_001, 16_777_217],
];

/// Kinds with identifiers at and beside their limits.
const FRAMES: &[(u32, u32)] =
    &[(11, 0), (11, 2047), (11, 2048), (29, 0), (29, 536_870_911), (29, 536_870_912)];

/// Periods that bring a group to the limits of its pattern.
const PERIODS: &[u32] = &[
    1, 2, 3, 125, 250, 255, 256, 999, 1000, 1001, 3906, 3907, 4000, 65_536, 65_537, 200_000,
    500_000, 999_983, 999_999, 1_000_000,
];

/// Periods of two frames; the hyperperiod of the first pair is 1000001.
const PAIRS: &[[u32; 2]] = &[[101, 9901], [1000, 1001], [999, 1000], [1, 255], [1, 256]];

/// Columns that break the notation.
pub const BROKEN: &[&[u8]] = &[
    b"", b"00", b"01", b"-1", b"+1", b"\t1", b"1 ", b"1x", b"x", b"/", b":", b"\xff", b"\0",
    b"1 1", b"\n1", b"0x1", b"1.0", b" 0 ",
];

/// Identifiers that need more than 32 bits.
const LONG_IDENTIFIERS: &[&[u8]] =
    &[b"4294967295", b"4294967296", b"4294967301", b"8589934592", b"9999999999"];

/// Changes fields to values at and beyond their limits, to those of other lines, or at random.
pub fn damage_rows(random: &mut Random, rows: &mut [Row]) {
    let line = some_line(random, rows.len());
    let other = random.pick(rows);
    let column = random.below(FIELDS as u64) as usize;
    match random.below(26) {
        0..=4 => rows[line][column] = random.pick(AT_LIMITS[column]),
        5 => (rows[line][KIND], rows[line][IDENTIFIER]) = random.pick(FRAMES),
        6 => {
            let periods = rows[line][PERIOD].saturating_mul(random.between(1, 4) as u32);
            rows[line][OFFSET] = periods.saturating_sub(random.below(2) as u32);
        }
        7..=9 => {
            rows[line][IDENTIFIER] = other[IDENTIFIER];
            rows[line][KIND] = other[KIND];
        }
        10 => rows[line][..IDENTIFIER].copy_from_slice(&other[..IDENTIFIER]),
        11..=12 => rows[line][NODE] = other[NODE],
        13 => rows[line][GROUP] = other[GROUP],
        14 => rows[line][GROUP] = random.between(1, GROUPS.into()) as u32,
        15..=18 => set_second_group(random, rows, line),
        19 => rows[line][column] = random.word() as u32,
        _ => set_periods(random, rows, line),
    }
}

/// Any line, half of the time the middle one, so that several faults meet.
fn some_line(random: &mut Random, lines: usize) -> usize {
    if random.percent(50) {
        lines / 2
    } else {
        random.below(lines as u64) as usize
    }
}

/// Puts the node of another line in a second group; mostly something else is wrong too, on the same
/// line or on any.
fn set_second_group(random: &mut Random, rows: &mut [Row], line: usize) {
    let other = random.pick(rows);
    rows[line][NODE] = other[NODE];
    rows[line][GROUP] = other[GROUP] % GROUPS + 1;
    let at = if random.percent(50) { line } else { some_line(random, rows.len()) };
    match random.below(5) {
        0 => rows[at][CLAIM] = random.pick(&[0, 1_000_001]),
        1..=2 => rows[at][IDENTIFIER..=KIND].copy_from_slice(&other[IDENTIFIER..=KIND]),
        3 => set_periods(random, rows, at),
        _ => (),
    }
}

/// Gives the frames of a line's group periods near the limits of a pattern.
fn set_periods(random: &mut Random, rows: &mut [Row], line: usize) {
    let [node, group, ..] = rows[line];
    let next = (line + 1) % rows.len();
    (rows[next][NODE], rows[next][GROUP]) = (node, group);
    let of_group = rows.iter_mut().filter(|row| row[GROUP] == group);
    let mut of_group: Vec<&mut Row> = of_group.collect();
    let periods = periods(random, of_group.len());
    for (row, period) in of_group.iter_mut().zip(periods) {
        row[PERIOD] = period;
        row[OFFSET] %= period;
    }
}

/// Periods of so many frames: about 256 queueings, a hyperperiod near 1000000, or any near a limit.
fn periods(random: &mut Random, count: usize) -> Vec<u32> {
    match random.below(6) {
        0..=2 => {
            let short = random.pick(&[1, 2, 10, 300, 3900]);
            let times = random.between(256, 259).saturating_sub(count as u64).max(1);
            let mut periods = vec![short * times as u32; count];
            periods[0] = short;
            periods
        }
        3 => {
            let sixth = random.between(166_650, 166_680) as u32;
            (0..count).map(|_| sixth * random.pick(&[2, 3])).collect()
        }
        4 => random.pick(PAIRS).into_iter().cycle().take(count).collect(),
        _ => (0..count).map(|_| random.pick(PERIODS)).collect(),
    }
}

/// The file of rows; what is too wide for a column loses its first digits.
pub fn file_of(rows: &[Row]) -> Vec<u8> {
    let mut rows = rows.to_vec();
    for row in &mut rows {
        for (value, width) in row.iter_mut().zip(WIDTHS) {
            *value = (u64::from(*value) % 10_u64.pow(width as u32)) as u32;
        }
    }
    analyser::table::file_of(&rows)
}

/// Breaks line feeds, columns, single bytes or the length.
pub fn damage_file(random: &mut Random, file: &mut Vec<u8>) {
    if file.len() < LINE || random.percent(20) {
        return change_length(random, file, LINE, MOST_LINES);
    }
    let line = some_line(random, file.len() / LINE);
    let column = random.below(FIELDS as u64) as usize;
    match random.below(10) {
        0..=2 => file[line * LINE + LINE - 1] = random.pick(b" \r0x\0\x0b"),
        3..=5 => overwrite(field(file, line, column), random.pick(BROKEN)),
        6 => overwrite(field(file, line, column), &b"9999999999"[..WIDTHS[column]]),
        7 => {
            overwrite(field(file, line, IDENTIFIER), random.pick(LONG_IDENTIFIERS));
            if random.percent(40) {
                overwrite(field(file, line, KIND), random.pick(BROKEN));
            }
        }
        8 => file[line * LINE + random.below(LINE as u64) as usize] = random.word() as u8,
        _ => file[line * LINE + random.below(LINE as u64) as usize] = random.pick(b"  0123456789"),
    }
}

/// A column of a line.
fn field(file: &mut [u8], line: usize, column: usize) -> &mut [u8] {
    let start = line * LINE + WIDTHS[..column].iter().sum::<usize>();
    &mut file[start..start + WIDTHS[column]]
}

/// Puts a text into a column, right-justified; of a longer one the end.
pub fn overwrite(field: &mut [u8], text: &[u8]) {
    let text = &text[text.len().saturating_sub(field.len())..];
    let spaces = field.len() - text.len();
    field[..spaces].fill(b' ');
    field[spaces..].copy_from_slice(text);
}

/// Words that are no rows any more, in their number or otherwise.
pub fn damage_words(random: &mut Random, words: &mut Vec<u32>) {
    if words.is_empty() || random.percent(60) {
        return change_length(random, words, FIELDS, MOST_LINES);
    }
    let at = random.below(words.len() as u64) as usize;
    words[at] = random.word() as u32 >> random.below(32);
}

/// Cuts, lengthens or repeats what has so many elements a line.
pub fn change_length<T: Element>(random: &mut Random, list: &mut Vec<T>, line: usize, most: usize) {
    let len = list.len();
    let wanted = match random.below(8) {
        0 => 0,
        1 => random.below(len as u64 + 1) as usize,
        2 => len.saturating_sub(1),
        3 => len + 1,
        4 => len + random.between(1, 2 * line as u64) as usize,
        5 => (most + 1) * line + random.below(3) as usize - 1,
        6 if random.percent(10) => (65_536 + random.between(1, 64) as usize) * line,
        6 => (most + random.between(1, 40) as usize) * line,
        _ => most * line + random.below(3) as usize - 1,
    };
    if wanted > len && len > 0 && random.percent(70) {
        *list = list.iter().copied().cycle().take(wanted).collect();
    }
    let missing = wanted.saturating_sub(list.len());
    list.extend(filled::<T>(random, missing));
    list.truncate(wanted);
}
