//! Document 01 followed tick by tick, slow and sharing nothing with the fast path.

use crate::explain::Case;
use crate::judgement::{Judgement, Limits, Verdict};
use crate::lengths::LengthTable;
use crate::table::{Refusal, Row};
use std::collections::BTreeSet;

fn length(lengths: &LengthTable, row: &Row) -> u64 {
    let [short, long] = lengths;
    let line = if row[3] == 11 { short } else { long };
    u64::from(line[row[4] as usize])
}

/// Reads a file of lengths: 13 unless it is 92 bytes that writing its numbers gives again, then 14 at
/// the first number that is outside 47..400 or smaller than the one before it on its line.
pub fn loaded(file: &[u8]) -> Result<LengthTable, Refusal> {
    let Some(lengths) = written_so(file) else {
        return Err(Refusal { number: 13, place: 0 });
    };
    for (line, place) in [(lengths[0], 1), (lengths[1], 2)] {
        let mut least = 47;
        for length in line {
            if length < least || length > 400 {
                return Err(Refusal { number: 14, place });
            }
            least = length;
        }
    }
    Ok(lengths)
}

/// The numbers between spaces and line feeds, if there are nine a line and they are written so.
fn written_so(file: &[u8]) -> Option<LengthTable> {
    let text = std::str::from_utf8(file).ok()?;
    let words: Vec<u32> = text.split_whitespace().map_while(|word| word.parse().ok()).collect();
    if words.len() != 18 {
        return None;
    }
    let lengths = [words[..9].try_into().ok()?, words[9..].try_into().ok()?];
    let column = |length: &u32| format!("{length:>5}");
    let [short, long] = lengths.map(|line: [u32; 9]| line.iter().map(column).collect::<String>());
    (text == format!("{short}\n{long}\n") && file.len() == 92).then_some(lengths)
}

/// The last so many bits of a number, the greatest first.
fn bits(number: u32, count: u32) -> Vec<u32> {
    (0..count).rev().map(|place| number / 2_u32.pow(place) % 2).collect()
}

/// What a data frame sends until no other can have sent the same (ISO 11898-1): a short one its
/// identifier, RTR 0 and IDE 0; a long one 11 bits of its identifier, SRR 1, IDE 1, the other 18.
fn on_the_wire(row: &Row) -> Vec<u32> {
    if row[3] == 11 {
        return [bits(row[2], 11), vec![0, 0]].concat();
    }
    let identifier = bits(row[2], 29);
    [&identifier[..11], &[1, 1], &identifier[11..]].concat()
}

/// Of two frames that begin at once: at the first bit in which they differ, the one that sends 1
/// hears the other's 0 and gives way.
pub fn goes_ahead(row: &Row, of: &Row) -> bool {
    let mut sent = on_the_wire(row).into_iter().zip(on_the_wire(of));
    sent.find(|(own, other)| own != other).is_some_and(|(own, _)| own == 0)
}

/// A frame ahead at some alignment, and whether it is the frame judged.
struct Queued {
    distance: u64,
    period: u64,
    length: u64,
    judged: bool,
}

impl Queued {
    fn at(&self, tick: u64) -> bool {
        tick >= self.distance && (tick - self.distance) % self.period == 0
    }
}

/// The alignments in play of one group, each with the work queued so far.
struct Running {
    alignments: Vec<(Vec<Queued>, u64)>,
}

impl Running {
    fn tick(&mut self, tick: u64, with_judged: bool) {
        for (frames, sum) in &mut self.alignments {
            for frame in frames {
                if frame.at(tick) && (with_judged || !frame.judged) {
                    *sum += frame.length;
                }
            }
        }
    }

    fn greatest(&self) -> u64 {
        self.alignments.iter().map(|(_, sum)| *sum).max().unwrap()
    }
}

/// What the tick-by-tick path says of one row.
pub struct Answer {
    pub rough: Option<u64>,
    pub exact: Option<u64>,
    pub scenarios: u64,
    pub judgement: Judgement,
    /// The first response above the claim, unless the verdict is 11 or 12; whatever else it is.
    pub case: Option<Case>,
}

/// One row of a table; `instants` holds the alignments of each group.
struct Literal<'a> {
    lengths: &'a LengthTable,
    rows: &'a [Row],
    judged: &'a Row,
    blocking: u64,
    instants: Vec<Vec<u64>>,
    longest_window: u64,
    /// The gap between faults, and what each costs.
    faults: Option<(u64, u64)>,
}

pub fn answer(
    gap: Option<u64>,
    lengths: &LengthTable,
    rows: &[Row],
    row: usize,
    limits: Limits,
) -> Answer {
    let judged = &rows[row];
    let ahead = rows.iter().filter(|other| !goes_ahead(judged, other));
    let longest = ahead.map(|row| length(lengths, row)).max().unwrap();
    let below = rows.iter().filter(|other| goes_ahead(judged, other));
    let literal = Literal {
        lengths,
        rows,
        judged,
        blocking: below.map(|row| length(lengths, row)).max().map_or(0, |longest| longest - 1),
        instants: (1..=16).map(|group| instants(rows, judged, group)).collect(),
        longest_window: limits.window,
        faults: gap.map(|gap| (gap, 31 + longest)),
    };
    let rough = literal.rough();
    let Enumerated { exact, scenarios, case } = literal.enumerate();
    let level = literal.level(literal.levels_within(limits.scenarios));
    let judgement = judgement(judged[7], [rough, exact, level], scenarios, limits);
    let decided = !matches!(judgement.verdict, Verdict::NoWindow | Verdict::Undecided);
    let case = case.filter(|_| decided);
    Answer { rough, exact, scenarios, judgement, case }
}

/// By the rough bound, the exact one, and that of a level.
fn judgement(claim: u32, bounds: [Option<u64>; 3], scenarios: u64, limits: Limits) -> Judgement {
    let claim = i64::from(claim);
    let [rough, exact, level] = bounds.map(|bound| bound.map(|ticks| ticks as i64));
    let (verdict, bound) = match (rough, scenarios > limits.scenarios) {
        (None, _) => (Verdict::NoWindow, claim),
        (Some(rough), _) if rough <= claim => (Verdict::CertifiedRough, rough),
        (Some(rough), true) => match level.expect("a window for the rough bound") {
            level if level <= claim => (Verdict::CertifiedLevel, level),
            _ => (Verdict::Undecided, rough),
        },
        (Some(_), false) => match exact.expect("a window for the rough bound") {
            exact if exact <= claim => (Verdict::CertifiedExact, exact),
            exact => (Verdict::TooSmall, exact),
        },
    };
    Judgement {
        verdict,
        bound: if rough.is_some() { bound as u64 } else { 0 },
        margin: claim - bound,
    }
}

/// The distinct instants o + m*p of a group's frames ahead, each o less whole periods, or one empty
/// alignment.
fn instants(rows: &[Row], judged: &Row, group: u32) -> Vec<u64> {
    let of_group: Vec<&Row> = rows.iter().filter(|row| row[1] == group).collect();
    let divides = |multiple: u64| of_group.iter().all(|row| multiple % u64::from(row[5]) == 0);
    let hyperperiod = (1..).find(|multiple| divides(*multiple)).unwrap();
    let mut found = BTreeSet::new();
    for row in of_group.iter().filter(|row| !goes_ahead(judged, row)) {
        let mut instant = u64::from(row[6]);
        while instant >= u64::from(row[5]) {
            instant -= u64::from(row[5]);
        }
        while instant < hyperperiod {
            found.insert(instant);
            instant += u64::from(row[5]);
        }
    }
    if found.is_empty() {
        found.insert(0);
    }
    found.into_iter().collect()
}

impl Literal<'_> {
    fn own(&self) -> usize {
        self.judged[1] as usize - 1
    }

    fn rough(&self) -> Option<u64> {
        let mut bound = 0;
        for instant in &self.instants[self.own()] {
            let mut choices = self.instants.clone();
            choices[self.own()] = vec![*instant];
            bound = bound.max(greatest(&self.responses(&choices)?));
        }
        Some(bound)
    }

    /// Goes through all scenarios, the last group changing fastest.
    fn enumerate(&self) -> Enumerated {
        let mut odometer = vec![0; self.instants.len()];
        let mut found = Enumerated { exact: Some(0), scenarios: 0, case: None };
        loop {
            let picks = self.instants.iter().zip(&odometer);
            let alignments: Vec<u64> = picks.map(|(instants, pick)| instants[*pick]).collect();
            let choices: Vec<Vec<u64>> = alignments.iter().map(|at| vec![*at]).collect();
            let responses = self.responses(&choices);
            let late = responses.iter().flatten().position(|r| *r > self.judged[7].into());
            if let (Some(before), None) = (late, &found.case) {
                found.case = Some(Case { alignments, q: before as u64 + 1 });
            }
            let greatest = responses.map(|responses| greatest(&responses));
            found.exact = found.exact.and_then(|so_far| Some(greatest?.max(so_far)));
            found.scenarios += 1;
            if !self.advance(&mut odometer) {
                return found;
            }
        }
    }

    /// The groups that a level fixes: k's own, then the others rising, for as long as the product of their
    /// alignments is at most a number.
    fn levels_within(&self, most: u64) -> Vec<usize> {
        let mut fixed = vec![self.own()];
        let mut product = self.instants[self.own()].len() as u64;
        for group in (0..16).filter(|group| *group != self.own()) {
            product *= self.instants[group].len() as u64;
            if product > most {
                break;
            }
            fixed.push(group);
        }
        fixed
    }

    /// The bound with some groups fixed, at every combination, and all others at any alignment.
    fn level(&self, fixed: Vec<usize>) -> Option<u64> {
        let mut choices = vec![self.instants.clone()];
        for group in fixed {
            let split = |choice: Vec<Vec<u64>>| {
                let at = |instant: &u64| {
                    let mut choice = choice.clone();
                    choice[group] = vec![*instant];
                    choice
                };
                self.instants[group].iter().map(at).collect::<Vec<_>>()
            };
            choices = choices.into_iter().flat_map(split).collect();
        }
        let bounds = choices.iter().map(|choice| Some(greatest(&self.responses(choice)?)));
        bounds.collect::<Option<Vec<u64>>>().map(|bounds| greatest(&bounds))
    }

    fn advance(&self, odometer: &mut [usize]) -> bool {
        for group in (0..odometer.len()).rev() {
            odometer[group] += 1;
            if odometer[group] < self.instants[group].len() {
                return true;
            }
            odometer[group] = 0;
        }
        false
    }

    /// The responses for q = 1, 2, ...
    fn responses(&self, choices: &[Vec<u64>]) -> Option<Vec<u64>> {
        let window = self.window(choices)?;
        let distance = self.distance(self.judged, choices[self.own()][0]);
        let mut responses = Vec::new();
        let mut q = 1;
        while distance + (q - 1) * u64::from(self.judged[5]) < window {
            let queueing = distance + (q - 1) * u64::from(self.judged[5]);
            let end = self.start(choices, q) + length(self.lengths, self.judged);
            responses.push(end - queueing);
            q += 1;
        }
        Some(responses)
    }

    /// Tries L = 1, 2, 3, ...; tick L - 1 is the last that counts.
    fn window(&self, choices: &[Vec<u64>]) -> Option<u64> {
        let mut running = self.running(choices);
        for window in 1..=self.longest_window {
            running.iter_mut().for_each(|group| group.tick(window - 1, true));
            if self.blocking + sum(&running) + self.faulty(window) <= window {
                return Some(window);
            }
        }
        None
    }

    /// Tries w = 0, 1, 2, ...; tick w still counts.
    fn start(&self, choices: &[Vec<u64>], q: u64) -> u64 {
        let mut running = self.running(choices);
        let before = self.blocking + (q - 1) * length(self.lengths, self.judged);
        let mut start = 0;
        loop {
            running.iter_mut().for_each(|group| group.tick(start, false));
            let faulty = self.faulty(start + length(self.lengths, self.judged));
            if before + sum(&running) + faulty <= start {
                return start;
            }
            start += 1;
        }
    }

    /// What faults cost that begin at 0 and a gap after each other, in so many ticks.
    fn faulty(&self, ticks: u64) -> u64 {
        self.faults.map_or(0, |(gap, cost)| (0..ticks).step_by(gap as usize).count() as u64 * cost)
    }

    fn running(&self, choices: &[Vec<u64>]) -> Vec<Running> {
        let groups = choices.iter().enumerate();
        let of_group = |(group, instants): (usize, &Vec<u64>)| Running {
            alignments: instants.iter().map(|a| (self.queued(group, *a), 0)).collect(),
        };
        groups.map(of_group).collect()
    }

    fn queued(&self, group: usize, instant: u64) -> Vec<Queued> {
        let of_group = self.rows.iter().filter(|row| row[1] as usize == group + 1);
        let ahead = of_group.filter(|row| !goes_ahead(self.judged, row));
        let queued = |row: &Row| Queued {
            distance: self.distance(row, instant),
            period: u64::from(row[5]),
            length: length(self.lengths, row),
            judged: row == self.judged,
        };
        ahead.map(queued).collect()
    }

    fn distance(&self, row: &Row, instant: u64) -> u64 {
        let ahead = i64::from(row[6]) - instant as i64;
        ahead.rem_euclid(i64::from(row[5])) as u64
    }
}

/// What all scenarios come to: the exact bound, their number, and the first response above the claim.
struct Enumerated {
    exact: Option<u64>,
    scenarios: u64,
    case: Option<Case>,
}

fn greatest(responses: &[u64]) -> u64 {
    responses.iter().copied().max().unwrap_or(0)
}

fn sum(running: &[Running]) -> u64 {
    running.iter().map(Running::greatest).sum()
}

#[cfg(test)]
mod tests {
    use super::*;
    use crate::bounds::rank;
    use crate::lengths::STANDARD;
    use crate::random::{clustered, Random};

    /// The rank by one number is the one by single bits, in tables with many ties.
    #[test]
    fn ranks_agree() {
        let mut random = Random::new(5);
        for rows in (0..200).map(|_| clustered(&mut random, &STANDARD, 16, 8, (110, 300))) {
            for row in &rows {
                rows.iter().for_each(|of| assert_eq!(rank(row) < rank(of), goes_ahead(row, of)));
            }
        }
    }
}
