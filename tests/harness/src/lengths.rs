//! The lengths that calls are given: document 01's, own ones and damaged ones, as a file and as
//! numbers in memory.

use crate::damage::{change_length, overwrite, BROKEN};
use analyser::lengths::{file_of, LengthTable, FILE, LINE, PAYLOADS, STANDARD, WIDTH};
use analyser::random::{own_lengths, Random};
use std::array::from_fn;

/// Document 01's lengths as a file, written out apart from the analyser's constant.
const DOCUMENT_01: &str = "   55   65   75   85   95  105  115  125  135
   80   90  100  110  120  130  140  150  160
";

const NUMBERS: usize = 2 * PAYLOADS;

/// The limits, what stands beside them, and what fewer bits would take for them.
const AT_LIMITS: &[u32] =
    &[0, 46, 46, 47, 400, 401, 401, 47 + 256, 400 + 65_536, 99_999, 100_100, u32::MAX];

/// Lengths as they are lent: a file; and numbers, nine of kind 11 and then nine of kind 29.
pub struct Given {
    pub file: Vec<u8>,
    pub numbers: Vec<u32>,
}

/// Mostly document 01's, otherwise others that keep the limits.
pub fn draw(random: &mut Random) -> LengthTable {
    if random.percent(60) {
        STANDARD
    } else {
        own_lengths(random)
    }
}

impl Given {
    pub fn document_01() -> Given {
        let numbers = DOCUMENT_01.split_whitespace().map(|word| word.parse().expect("a number"));
        Given { file: DOCUMENT_01.into(), numbers: numbers.collect() }
    }

    /// These lengths with so many faults: in their values, then in the notation of the file.
    pub fn damaged(random: &mut Random, lengths: &LengthTable, faults: u64) -> Given {
        let mut numbers = lengths.concat();
        let in_values = random.below(faults + 1);
        (0..in_values).for_each(|_| damage_values(random, &mut numbers));
        let mut file = file_of(&table_of(&numbers));
        (in_values..faults).for_each(|_| damage_file(random, &mut file));
        for _ in in_values..faults {
            if random.percent(30) {
                numbers.resize(random.pick(&[0, 9, 17, 17, 19, 27]), 100);
            } else {
                damage_values(random, &mut numbers);
            }
        }
        Given { file, numbers }
    }
}

/// The two lines of numbers in memory; those that are missing are 0.
pub fn table_of(numbers: &[u32]) -> LengthTable {
    let number = |at: usize| numbers.get(at).copied().unwrap_or(0);
    from_fn(|line| from_fn(|payload| number(line * PAYLOADS + payload)))
}

/// Changes values to those at the limits, beside the one before, or at random, in one line or both.
fn damage_values(random: &mut Random, numbers: &mut [u32]) {
    if numbers.len() < NUMBERS {
        return;
    }
    let line = random.below(2) as usize * PAYLOADS;
    let at = line + random.between(1, PAYLOADS as u64 - 1) as usize;
    match random.below(10) {
        0..=1 => numbers[line + random.below(9) as usize] = random.pick(AT_LIMITS),
        2..=3 => numbers[at] = numbers[at - 1].saturating_sub(1),
        4 => numbers[at] = numbers[at - 1],
        5 => numbers.swap(at - 1, at),
        6 => numbers.rotate_left(PAYLOADS),
        7 => numbers[line..line + PAYLOADS].fill(random.pick(AT_LIMITS)),
        8 => {
            for line in [0, PAYLOADS] {
                let at = random.below(PAYLOADS as u64) as usize;
                numbers[line + at] = random.pick(&[46, 401]);
            }
        }
        _ => numbers[at] = random.word() as u32 >> random.below(32),
    }
}

/// Breaks columns, line feeds, single bytes or the size; or the second line, with a value on the
/// first that is outside its limits.
fn damage_file(random: &mut Random, file: &mut Vec<u8>) {
    if file.len() != FILE || random.percent(25) {
        return damage_size(random, file);
    }
    let line = random.below(2) as usize;
    let column = line * LINE + random.below(PAYLOADS as u64) as usize * WIDTH;
    match random.below(8) {
        0..=2 => overwrite(&mut file[column..column + WIDTH], random.pick(BROKEN)),
        3 => file[line * LINE + LINE - 1] = random.pick(b" \r0x\0\x0b"),
        4 => file[random.below(FILE as u64) as usize] = random.word() as u8,
        5 => file[random.below(FILE as u64) as usize] = random.pick(b"  0123456789\n"),
        6 => file.rotate_left(random.pick(&[1, WIDTH, LINE - 1])),
        _ => {
            let outside = random.pick(&[&b"46"[..], b"401", b"0"]);
            overwrite(&mut file[column % LINE..][..WIDTH], outside);
            overwrite(&mut file[LINE..LINE + WIDTH], random.pick(BROKEN));
        }
    }
}

/// One byte less or more, none, one line, or any other size.
fn damage_size(random: &mut Random, file: &mut Vec<u8>) {
    match random.below(8) {
        0..=1 => file.truncate(FILE - 1),
        2 => file.push(b'\n'),
        3 => file.insert(0, b' '),
        4 => file.clear(),
        5 => file.truncate(LINE),
        6 => *file = file.repeat(2),
        _ => change_length(random, file, LINE, 2),
    }
}
