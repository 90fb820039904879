//! What calls that explain a row came to.

use crate::answer::{refusal, Judged};
use crate::explain_inputs::{ExplainCall, SHOWN};
use analyser::bounds::View;
use analyser::explain::Case;
use analyser::judgement::{Search, LIMITS};
use analyser::table::{Row, GROUP};
use analyser::{lengths, table};
use std::collections::BTreeMap;

/// Verdicts, and refusals below 0.
const POSSIBLE: &[i64] = &[1, 2, 3, 4, 11, 12, -1, -2, -3, -4, -5, -6, -7, -8, -9, -13, -14, -15];

/// Wrong readings of which case is shown are told apart in rows with so many scenarios at most.
const MOST_READ: u64 = 2000;

/// How the case could be chosen wrongly.
const READINGS: [&str; 6] = [
    "last group slowest",
    "own group first",
    "alignments falling",
    "the worst case",
    "the greatest q",
    "a response equal to the claim",
];

/// From so many scenarios on a row belongs to the next class.
const CLASSES: [u64; 5] = [1, 2, 100, 10_000, 65_536];

pub struct ExplainTally {
    /// With an area of 17 numbers, a longer one, a shorter one, none.
    answers: BTreeMap<i64, [u64; 4]>,
    /// Cases by the number of scenarios.
    classes: [u64; CLASSES.len()],
    /// Cases at the first instance, a later one, and one of more than three digits.
    instances: [u64; 3],
    /// Cases in the first scenario, a later one, the last one of several.
    places: [u64; 3],
    /// Cases in which a wrong reading shows another one.
    readings: [u64; READINGS.len()],
}

impl ExplainTally {
    pub fn new() -> ExplainTally {
        ExplainTally {
            answers: POSSIBLE.iter().map(|number| (*number, [0; 4])).collect(),
            classes: [0; CLASSES.len()],
            instances: [0; 3],
            places: [0; 3],
            readings: [0; READINGS.len()],
        }
    }

    pub fn add(&mut self, call: &ExplainCall, answer: i64) {
        let number = refusal(answer)
            .map_or_else(|| Judged::new(answer).verdict, |refusal| -i64::from(refusal.number));
        let size = match call.size {
            SHOWN => 0,
            0 => 3,
            size => 1 + usize::from(size < SHOWN),
        };
        self.answers.entry(number).or_default()[size] += 1;
        if number == 3 {
            self.add_case(call);
        }
    }

    fn add_case(&mut self, call: &ExplainCall) {
        let lengths = lengths::parse(&call.lengths).expect("accepted lengths");
        let rows = table::parse(&call.table).expect("an accepted table");
        let view = View::new(&lengths, &rows, call.row as usize);
        let case = view.first_case(Search::Pruned, view.claim(), LIMITS.window);
        let case = case.expect("a case of verdict 3");
        let count = view.scenario_count();
        let class = CLASSES.iter().rposition(|least| count >= *least).expect("a scenario");
        self.classes[class] += 1;
        self.instances[usize::from(case.q > 1) + usize::from(case.q > 999)] += 1;
        if count > 1 {
            let is_at = |number| view.instants(number) == case.alignments;
            let place = if is_at(0) { 0 } else { 1 + usize::from(is_at(count - 1)) };
            self.places[place] += 1;
        }
        if count <= MOST_READ {
            let read = Readings::new(&view, &rows[call.row as usize]);
            for (count, other) in self.readings.iter_mut().zip(read.others()) {
                *count += u64::from(other != case);
            }
        }
    }

    pub fn print(&self) {
        println!(
            "{:<12}{}",
            "area",
            ["17", "longer", "shorter", "none"].map(|t| format!("{t:>9}")).concat()
        );
        for (number, counts) in &self.answers {
            let outcome = if *number > 0 {
                format!("verdict {number:>2}")
            } else {
                format!("refused {:>2}", -number)
            };
            println!("{outcome:<12}{}", counts.map(|count| format!("{count:>9}")).concat());
        }
        let classes: String = CLASSES
            .iter()
            .zip(&self.classes)
            .map(|(least, count)| format!(" {least}..: {count}"))
            .collect();
        println!("cases by scenarios:{classes}");
        let [first, later, digits] = self.instances;
        println!(
            "cases at the first instance {first}, at a later one {later}, of four digits {digits}"
        );
        let [first, later, last] = self.places;
        println!("cases in the first of several scenarios {first}, in a later one {later}, the last {last}");
        let readings: Vec<String> = READINGS
            .iter()
            .zip(&self.readings)
            .map(|(name, count)| format!("{name} {count}"))
            .collect();
        println!("another case would be shown by: {}", readings.join(", "));
    }

    /// What was possible and not seen, and what was seen and not possible.
    pub fn faults(&self) -> Vec<String> {
        let mut faults = Vec::new();
        for (number, counts) in &self.answers {
            if counts.iter().sum::<u64>() == 0 {
                faults.push(format!("answer {number} did not occur"));
            } else if !POSSIBLE.contains(number) {
                faults.push(format!("{number} is not one of the answers"));
            }
        }
        // Where there is no case, the area does not matter; where there is, a short one is refused.
        let verdicts = self.answers.iter().filter(|(number, _)| **number > 0);
        for (number, [same, longer, shorter, none]) in verdicts {
            let short = if *number == 3 { 1 } else { shorter * none };
            if same * longer * short == 0 {
                faults.push(format!("verdict {number} did not occur with every area"));
            }
        }
        let counted = [
            ("scenarios", &self.classes[..]),
            ("instances", &self.instances),
            ("places", &self.places),
            ("readings", &self.readings),
        ];
        for (name, counts) in counted {
            if counts.contains(&0) {
                faults.push(format!("cases of some {name} did not occur"));
            }
        }
        faults
    }
}

/// A scenario: the place of each group's alignment, the instants, and the responses.
struct Scenario {
    places: Vec<u64>,
    alignments: Vec<u64>,
    responses: Vec<u64>,
}

impl Scenario {
    /// The case of its first response from a number on.
    fn case(&self, least: u64) -> Case {
        let before = self.responses.iter().position(|response| *response >= least);
        let q = before.expect("a response that exceeds") as u64 + 1;
        Case { alignments: self.alignments.clone(), q }
    }
}

/// All scenarios of a row, in order, for wrong readings of the case that breaks its claim.
struct Readings {
    scenarios: Vec<Scenario>,
    own: usize,
    claim: u64,
}

impl Readings {
    fn new(view: &View, row: &Row) -> Readings {
        let counts: Vec<u64> = view.alignment_counts().collect();
        let scenario = |number: u64| {
            let mut left = number;
            let mut places: Vec<u64> = Vec::new();
            for count in counts.iter().rev() {
                places.insert(0, left % count);
                left /= count;
            }
            let responses = view.responses_in(number, LIMITS.window).expect("a window");
            Scenario { places, alignments: view.instants(number), responses }
        };
        let scenarios = (0..view.scenario_count()).map(scenario).collect();
        Readings { scenarios, own: row[GROUP] as usize - 1, claim: view.claim() }
    }

    /// Those with a response from a number on.
    fn from(&self, least: u64) -> impl Iterator<Item = &Scenario> {
        self.scenarios
            .iter()
            .filter(move |scenario| scenario.responses.iter().any(|response| *response >= least))
    }

    /// What each wrong reading shows.
    fn others(&self) -> [Case; READINGS.len()] {
        let above = self.claim + 1;
        let reversed =
            |scenario: &&Scenario| scenario.places.iter().rev().copied().collect::<Vec<u64>>();
        let own_first = |scenario: &&Scenario| (scenario.places[self.own], scenario.places.clone());
        let greatest = |scenario: &Scenario| scenario.responses.iter().copied().max().unwrap_or(0);
        let worst = self.scenarios.iter().map(greatest).max().expect("a scenario");
        let first = self.from(above).next().expect("a case");
        let last = first.responses.iter().rposition(|response| *response >= above);
        let greatest_q = last.expect("a response that exceeds") as u64 + 1;
        let shown = |scenario: Option<&Scenario>, least| scenario.expect("a case").case(least);
        [
            shown(self.from(above).min_by_key(reversed), above),
            shown(self.from(above).min_by_key(own_first), above),
            shown(self.from(above).last(), above),
            shown(self.from(worst).next(), worst),
            Case { alignments: first.alignments.clone(), q: greatest_q },
            shown(self.from(self.claim).next(), self.claim),
        ]
    }
}
