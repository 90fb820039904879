//! The library's signed numbers taken apart.

use analyser::table::Refusal;

/// Number and place of a call that was turned back.
pub fn refusal(answer: i64) -> Option<Refusal> {
    let code = u32::try_from(-answer).ok()?;
    (code > 0).then_some(Refusal { number: code / 10_000, place: code % 10_000 })
}

/// Verdict and margin of a judgement.
pub struct Judged {
    pub verdict: i64,
    pub margin: i64,
}

impl Judged {
    /// Takes an answer apart that is no refusal.
    pub fn new(answer: i64) -> Judged {
        Judged { verdict: answer / 100_000_000_000_000, margin: answer % 10_000_000 - 1_000_000 }
    }
}
