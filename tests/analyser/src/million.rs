//! A million draws, and the fingerprint of the logs that they give.

use crate::lengths::{self, LengthTable};
use crate::replay;
use crate::table::{self, Row};

/// Logs by the seeds 1, 2 and so on; lines of each. With four groups that have frames a log takes
/// 4 + 1596 draws, so that all logs take 625 × 1600 = 1000000.
pub const SEEDS: u32 = 625;
pub const LINES: usize = 1596;

/// Own lengths, some of them equal.
pub const LENGTHS: LengthTable =
    [[47, 60, 60, 75, 99, 120, 120, 130, 399], [51, 90, 100, 110, 128, 130, 140, 256, 400]];

/// Four groups, one of them of two nodes; both kinds, with ties in the first 11 bits; late frames; a
/// bus that at times lets instances wait.
pub const ROWS: [Row; 8] = [
    [9, 2, 5, 11, 8, 1000, 0, 500],
    [4, 2, 5 << 18, 29, 8, 1000, 130, 500],
    [4, 2, 2047, 11, 0, 250, 777, 500],
    [7, 16, 4 << 18 | 262_143, 29, 3, 900, 899, 500],
    [7, 16, 0, 11, 4, 300, 50_000, 500],
    [1, 7, 536_870_911, 29, 0, 100_000, 0, 500],
    [12, 11, 1, 11, 2, 777, 5, 500],
    [12, 11, 6 << 18, 29, 8, 2331, 2331, 500],
];

/// The 64-bit FNV-1a of the logs' bytes, one log behind the other. It was computed by this analyser, and
/// once more by a program in C, written for this and not kept, that shares nothing with it: 32-bit words
/// for the generator, hyperperiods worked out by hand (1000, 100000, 2331 and 900), and one tick after
/// the other over a list of waiting instances.
pub const FINGERPRINT: u64 = 0x16c3_42e6_dba7_8df6;

/// Fowler, Noll and Vo's fingerprint of bytes.
pub struct Fnv1a(pub u64);

impl Fnv1a {
    pub fn new() -> Fnv1a {
        Fnv1a(0xcbf2_9ce4_8422_2325)
    }

    pub fn add(&mut self, bytes: &[u8]) {
        for byte in bytes {
            self.0 = (self.0 ^ u64::from(*byte)).wrapping_mul(0x0000_0100_0000_01b3);
        }
    }
}

impl Default for Fnv1a {
    fn default() -> Fnv1a {
        Fnv1a::new()
    }
}

/// The fingerprint of the logs that a simulator gives for the files of lengths and table, a seed, and a
/// number of lines.
pub fn fingerprint(mut simulate: impl FnMut(&[u8], &[u8], u32, u64) -> Vec<u8>) -> u64 {
    let (lengths, table) = (lengths::file_of(&LENGTHS), table::file_of(&ROWS));
    let mut fingerprint = Fnv1a::new();
    for seed in 1..=SEEDS {
        fingerprint.add(&simulate(&lengths, &table, seed, LINES as u64));
    }
    fingerprint.0
}

/// That of this analyser's logs.
pub fn own_fingerprint() -> u64 {
    fingerprint(|lengths, table, seed, lines| {
        replay::log_of_files(lengths, table, seed, lines).expect("a log")
    })
}

#[cfg(test)]
mod tests {
    use super::*;

    #[test]
    fn a_million_draws() {
        assert_eq!(own_fingerprint(), FINGERPRINT);
    }

    /// Published values of FNV-1a.
    #[test]
    fn known_fingerprints() {
        let known = [("", 0xcbf2_9ce4_8422_2325), ("a", 0xaf63_dc4c_8601_ec8c)];
        for (text, wanted) in known.into_iter().chain([("foobar", 0x8594_4171_f739_67e8)]) {
            let mut fingerprint = Fnv1a::new();
            fingerprint.add(text.as_bytes());
            assert_eq!(fingerprint.0, wanted);
        }
    }
}
