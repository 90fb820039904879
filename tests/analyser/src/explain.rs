//! The case that breaks a claim (document 02, request 4): the first scenario in which a response
//! exceeds it, groups rising and alignments rising, the last group changing fastest; and its least q.

use crate::bounds::{Alignment, View};
use crate::judgement::{find_row, judge_view, Judgement, Limits, Search, Verdict, LIMITS};
use crate::lengths;
use crate::listing::{listing_line, refusal_line};
use crate::table::{self, Refusal, Row};

/// The alignment of each group, group 1 first, and the number of the instance, from 1.
#[derive(Clone, Debug, PartialEq, Eq)]
pub struct Case {
    pub alignments: Vec<u64>,
    pub q: u64,
}

/// A judgement, and the case where the claim is too small.
#[derive(Clone, Debug, PartialEq, Eq)]
pub struct Explained {
    pub judgement: Judgement,
    pub case: Option<Case>,
}

/// Judges the claim of a row as it is seen, and shows the case.
pub fn explain_view(search: Search, view: &View, limits: Limits) -> Explained {
    let judgement = judge_view(search, view, limits);
    let too_small = judgement.verdict == Verdict::TooSmall;
    let case = too_small.then(|| {
        let case = view.first_case(search, view.claim(), limits.window);
        case.expect("a response above the claim")
    });
    Explained { judgement, case }
}

/// Explains a row of a file, by the lengths of another; with the row.
pub fn explain_files(lengths: &[u8], file: &[u8], row: i128) -> Result<(Row, Explained), Refusal> {
    let lengths = lengths::parse(lengths)?;
    let rows = table::parse(file)?;
    let row = find_row(&rows, row)?;
    let explained = explain_view(Search::Pruned, &View::new(&lengths, &rows, row), LIMITS);
    Ok((rows[row], explained))
}

/// The lines that explain a row of an input, or the one line of a refusal.
pub fn explain(input: &[u8], row: i128) -> String {
    let (lengths, file) = lengths::split(input);
    explain_files(lengths, file, row).map_or_else(refusal_line, |(row, explained)| {
        let case = explained.case.map_or(String::new(), |case| case.lines());
        listing_line(&row, explained.judgement) + &case
    })
}

impl Case {
    /// The numbers shown to C: the alignments of groups 1 to 16, and the instance.
    pub fn numbers(&self) -> Vec<u32> {
        self.alignments.iter().chain([&self.q]).map(|number| *number as u32).collect()
    }

    /// A line for each group, and one for the instance, which is wider where it has more digits.
    fn lines(&self) -> String {
        let groups = (1..).zip(&self.alignments);
        let groups: String = groups.map(|(group, at)| format!("{group:>3}{at:>8}\n")).collect();
        let width = if self.q > 999 { 8 } else { 3 };
        format!("{groups}{:>width$}\n", self.q)
    }
}

impl View<'_> {
    /// The first case in which a response exceeds a claim, by one search or the other.
    pub fn first_case(&self, search: Search, claim: u64, limit: u64) -> Option<Case> {
        match search {
            Search::Plain => self.first_of_all(claim, limit),
            Search::Pruned => self.first_from(&mut Vec::new(), claim, limit),
        }
    }

    /// The responses in a scenario by its number, for q = 1, 2, ...; none if it has no window.
    pub fn responses_in(&self, number: u64, limit: u64) -> Option<Vec<u64>> {
        let scenario = self.scenario(number);
        let others = |end| self.other_groups().map(|group| scenario[group].work(end)).sum();
        let responses = self.responses(scenario[self.own], &others, limit)?;
        Some(responses.map(|found| found.response).collect())
    }

    /// By every scenario.
    fn first_of_all(&self, claim: u64, limit: u64) -> Option<Case> {
        let case = |number| self.case_in(&self.scenario(number), claim, limit);
        (0..self.scenario_count()).find_map(case)
    }

    /// With the first groups at these alignments, by the next group's, rising: without those with which
    /// no scenario can exceed the claim.
    fn first_from<'b>(
        &'b self,
        picks: &mut Vec<&'b Alignment>,
        claim: u64,
        limit: u64,
    ) -> Option<Case> {
        if picks.len() == self.groups.len() {
            return self.case_in(picks, claim, limit);
        }
        for alignment in &self.groups[picks.len()] {
            picks.push(alignment);
            let case = self.can_exceed(picks, claim, limit);
            let case = case.then(|| self.first_from(picks, claim, limit)).flatten();
            if case.is_some() {
                return case;
            }
            picks.pop();
        }
        None
    }

    /// Whether some alignment of the own group has a response above the claim, with the first groups at
    /// these alignments and all others at their greatest.
    fn can_exceed(&self, picks: &[&Alignment], claim: u64, limit: u64) -> bool {
        let others = |end| {
            let work = |group: usize| match picks.get(group) {
                Some(pick) => pick.work(end),
                None => self.greatest(group, end),
            };
            self.other_groups().map(work).sum()
        };
        let exceeds = |own| self.worst(own, &others, limit).is_some_and(|w| w.response > claim);
        match picks.get(self.own) {
            Some(own) => exceeds(own),
            None => self.groups[self.own].iter().any(exceeds),
        }
    }

    /// The case of one scenario: its least q with a response above the claim.
    fn case_in(&self, scenario: &[&Alignment], claim: u64, limit: u64) -> Option<Case> {
        let others = |end| self.other_groups().map(|group| scenario[group].work(end)).sum();
        let mut responses = self.responses(scenario[self.own], &others, limit)?;
        let late = responses.find(|found| found.response > claim)?;
        let alignments = scenario.iter().map(|alignment| alignment.instant).collect();
        Some(Case { alignments, q: late.q })
    }
}
