//! Cases as one stream of bytes, and a line expected for each.

use crate::bounds::View;
use crate::judgement::{judge, precise_bound, Search, LIMITS};
use crate::lengths::STANDARD;
use crate::listing::{judgement_columns, refusal_columns};
use crate::table::{self, Refusal};

/// Every word or byte lent holds this before a call.
const FILL: u8 = 7;

/// R reads, C checks and W writes a table in an area of this size;
/// J judges and P bounds the row of this number.
pub struct Case {
    pub letter: char,
    pub number: usize,
    pub payload: Vec<u8>,
}

/// All headers with their payloads.
pub fn stdin(cases: &[Case]) -> Vec<u8> {
    let bytes = |case: &Case| [case.header().into_bytes(), case.payload.clone()].concat();
    cases.iter().flat_map(bytes).collect()
}

/// All expected lines.
pub fn stdout(cases: &[Case]) -> Vec<u8> {
    cases.iter().map(Case::line).collect::<String>().into_bytes()
}

impl Case {
    pub fn of_words(letter: char, number: usize, words: &[u32]) -> Case {
        let payload = words.iter().flat_map(|word| word.to_le_bytes()).collect();
        Case { letter, number, payload }
    }

    fn words(&self) -> Vec<u32> {
        let word = |four: &[u8]| u32::from_le_bytes([four[0], four[1], four[2], four[3]]);
        self.payload.chunks(4).map(word).collect()
    }

    fn header(&self) -> String {
        format!("{}{:>8}{:>8}\n", self.letter, self.number, self.payload.len())
    }

    fn line(&self) -> String {
        let columns = match self.letter {
            'J' | 'P' => columns(self.of_row().map(|(_, columns)| columns)),
            'C' => columns(self.of_table().0.map(lines_column)),
            _ => {
                let (result, fingerprint) = self.of_table();
                format!("{}{fingerprint:>10}", columns(result.map(lines_column)))
            }
        };
        format!("{}{columns}\n", self.letter)
    }

    /// The number of lines, and the fingerprint of the area lent.
    pub fn of_table(&self) -> (Result<usize, Refusal>, u32) {
        if self.letter == 'R' {
            let mut area = vec![u32::from(FILL); self.number];
            let result = table::read_into(&self.payload, &mut area);
            return (result, fingerprint(area.into_iter()));
        }
        let mut area = vec![FILL; self.number];
        let result = match self.letter {
            'C' => table::check(&self.words()).map(|rows| rows.len()),
            _ => table::write_into(&self.words(), &mut area),
        };
        (result, fingerprint(area.into_iter().map(u32::from)))
    }

    /// The verdict or 0, and the columns of the answer.
    pub fn of_row(&self) -> Result<(u32, String), Refusal> {
        let row = self.number as i128;
        if self.letter == 'P' {
            let bound = precise_bound(&STANDARD, &self.words(), row)?;
            self.check_plainly(bound);
            return Ok((0, format!("{bound:>8}")));
        }
        let judged = judge(&STANDARD, &self.words(), row)?;
        let verdict = judged.verdict as u32;
        match verdict {
            2 | 3 => self.check_plainly(judged.bound),
            4 => self.check_level_plainly(judged.bound),
            _ => (),
        }
        Ok((verdict, judgement_columns(judged)))
    }

    /// Finds the bound of the deepest level again by plain enumeration.
    fn check_level_plainly(&self, bound: u64) {
        let rows = table::check(&self.words()).expect("an accepted table");
        let view = View::new(&STANDARD, &rows, self.number);
        let depth = view.deepest_level(LIMITS.scenarios);
        assert_eq!(view.level(Search::Plain, depth, LIMITS.window), Some(bound));
    }

    /// Finds the exact bound again by plain enumeration.
    fn check_plainly(&self, bound: u64) {
        let rows = table::check(&self.words()).expect("an accepted table");
        let plain = View::new(&STANDARD, &rows, self.number).exact(LIMITS.window);
        assert_eq!(plain.map(|worst| worst.response), Some(bound));
    }
}

fn columns(result: Result<String, Refusal>) -> String {
    result.map_or_else(refusal_columns, |columns| format!("{:>3}{columns}", 0))
}

fn lines_column(lines: usize) -> String {
    format!("{lines:>6}")
}

fn fingerprint(area: impl Iterator<Item = u32>) -> u32 {
    area.fold(0, |h: u32, w| h.wrapping_mul(31).wrapping_add(w))
}
