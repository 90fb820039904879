//! The library's entry that shows the case which breaks a claim.

use crate::schedule::{Case, GROUPS};

extern "C" {
    fn certifier_explain(
        lengths: *const u8,
        lengths_len: usize,
        table: *const u8,
        table_len: usize,
        row: u64,
        shown: *mut u32,
        shown_len: usize,
    ) -> i64;
}

const VERDICT: i64 = 100_000_000_000_000;
const TOO_SMALL: i64 = 3;

pub enum Explained {
    Refused { number: i64, place: i64 },
    NoCase { verdict: i64 },
    Case(Case),
}

pub fn explain(lengths: &[u8], table: &[u8], row: u64) -> Explained {
    let mut shown = [0; GROUPS + 1];
    let (lengths_at, table_at) = (lengths.as_ptr(), table.as_ptr());
    // SAFETY: addresses and lengths are those of live memory, and nothing else refers to the area.
    let answer = unsafe {
        let area = shown.as_mut_ptr();
        certifier_explain(lengths_at, lengths.len(), table_at, table.len(), row, area, shown.len())
    };
    if answer < 0 {
        return Explained::Refused { number: -answer / 10_000, place: -answer % 10_000 };
    }
    if answer / VERDICT != TOO_SMALL {
        return Explained::NoCase { verdict: answer / VERDICT };
    }
    let alignments = std::array::from_fn(|group| shown[group].into());
    Explained::Case(Case { alignments, instance: shown[GROUPS].into() })
}
