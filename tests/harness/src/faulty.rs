//! Simulated buses with faults: frames that are certified under a gap meet their claims, and lowest frames
//! come near their bounds.

use crate::answer::Judged;
use crate::damage::file_of;
use crate::fault_calls::draw_under;
use crate::lent::Lent;
use crate::library;
use crate::simulate::{draw_length, until};
use crate::starts::{blocked_starts, starts, starts_to_meet, worst_scenario};
use crate::tables::{is_cheap_under, lowest, Drawn};
use analyser::bounds::rank;
use analyser::faulty_bus::{schedule, Attempt};
use analyser::lengths::{self, length};
use analyser::literal_bus::schedule_with_faults;
use analyser::random::Random;
use analyser::simulator::{release, Starts};
use analyser::table::{Row, CLAIM};

/// Schedules of each table.
const SCHEDULES: u64 = 6;
/// The aims that cost a frame the most: last ticks.
const LAST_TICKS: [usize; 3] = [2, 4, 5];
/// Ticks of a schedule that is also followed tick by tick.
const TICKS: u64 = 4000;

/// Where faults are aimed, by a frame: at anything; at its own attempts, or their last ticks; at the first
/// tick of a frame below; at the last tick of a better one, or of the longest ahead; or at once.
pub const AIMS: [&str; 7] = [
    "anything",
    "own attempts",
    "own last ticks",
    "first ticks below",
    "last ticks of better ones",
    "last ticks of the longest",
    "as soon as can be",
];

#[derive(Default)]
pub struct Faulty {
    pub tables: u64,
    pub certified: u64,
    pub schedules: u64,
    pub instances: u64,
    pub late: u64,
    pub just_in_time: u64,
    /// Cut transmissions by aim.
    pub cut: [u64; AIMS.len()],
    pub ticked: u64,
    pub unequal: u64,
    /// Bounds of lowest-priority frames, those met to the tick, and those where the library's is exceeded or
    /// not the analyser's.
    pub bounds: u64,
    pub met: u64,
    pub wrong: u64,
}

/// Who chooses faults: at which frame they are aimed and how, and the earliest tick of the next.
struct Aim<'a> {
    rows: &'a [Row],
    target: usize,
    longest: u64,
    aim: usize,
    gap: u64,
    earliest: u64,
}

impl<'a> Aim<'a> {
    fn new(drawn: &'a Drawn, target: usize, gap: u64, earliest: u64, aim: usize) -> Aim<'a> {
        let Drawn { lengths, rows, .. } = drawn;
        let ahead = rows.iter().filter(|row| rank(row) <= rank(&rows[target]));
        let longest = ahead.map(|row| length(lengths, row)).max().unwrap_or(0);
        Aim { rows, target, longest, aim, gap, earliest }
    }

    /// The tick of a fault in a transmission, if it is to be cut.
    fn fault(&mut self, random: &mut Random, row: usize, start: u64, length: u64) -> Option<u64> {
        let last = start + length - 1;
        if last < self.earliest {
            return None;
        }
        let first = start.max(self.earliest);
        let [own, target] = [row, self.target].map(|row| rank(&self.rows[row]));
        let any = random.between(first, last);
        let tick = match self.aim {
            0 => random.percent(30).then_some(any),
            1 => (own == target).then_some(any),
            2 => (own == target).then_some(last),
            3 => (own > target).then_some(start),
            4 => (own < target).then_some(last),
            5 => (own <= target && length == self.longest).then_some(last),
            _ => Some(first),
        };
        let tick = tick.filter(|tick| *tick >= self.earliest)?;
        self.earliest = tick + self.gap;
        Some(tick)
    }
}

impl Faulty {
    /// Simulates the bus of a table drawn with a gap.
    pub fn simulate(&mut self, random: &mut Random) {
        let (drawn, gap) = draw_under(random);
        let certified = certified_rows(random, &drawn, gap);
        self.tables += 1;
        self.certified += certified.len() as u64;
        for _ in 0..SCHEDULES {
            let any = random.below(drawn.rows.len() as u64) as usize;
            let target = if certified.is_empty() { any } else { random.pick(&certified) };
            let (starts, earliest) = fault_starts(random, &drawn, gap, target);
            let aim = random.below(AIMS.len() as u64) as usize;
            let aimed = Aim::new(&drawn, target, gap, earliest, aim);
            self.check_claims(random, &drawn, aimed, &certified, &starts);
        }
        self.follow_ticks(random, &drawn, gap);
        self.reach_bound(random, &drawn, gap);
    }

    /// The attempts up to a tick, with faults as they are aimed; counts what is cut.
    fn attempts(
        &mut self,
        random: &mut Random,
        drawn: &Drawn,
        mut aimed: Aim,
        (starts, until): (&Starts, u64),
    ) -> Vec<Attempt> {
        let Drawn { lengths, rows, .. } = drawn;
        let (aim, gap, manner) = (aimed.aim, aimed.gap, random.below(3));
        let mut fate = |row: usize, start: u64| {
            let length = draw_length(random, manner, lengths, &rows[row]);
            (length, aimed.fault(random, row, start, length))
        };
        let list = schedule(rows, starts, until, gap, &mut fate);
        self.cut[aim] += list.iter().filter(|attempt| attempt.fault.is_some()).count() as u64;
        list
    }

    /// Of instances queued at t with t + claim up to the end, the transmission that no fault cuts ends by
    /// t + claim.
    fn check_claims(
        &mut self,
        random: &mut Random,
        drawn: &Drawn,
        aimed: Aim,
        certified: &[usize],
        starts: &Starts,
    ) {
        let (rows, gap) = (&drawn.rows, aimed.gap);
        let until = until(rows, starts);
        let list = self.attempts(random, drawn, aimed, (starts, until));
        let mut ends: Vec<Vec<u64>> = vec![Vec::new(); rows.len()];
        let sent = list.iter().filter(|attempt| attempt.fault.is_none());
        sent.for_each(|attempt| ends[attempt.row].push(attempt.free()));
        for row in certified {
            let latest = |n: u64| release(&rows[*row], starts, n) + u64::from(rows[*row][CLAIM]);
            for instance in (0..).take_while(|n| latest(*n) <= until) {
                let end = ends[*row].get(instance as usize);
                let spare = end.and_then(|end| latest(instance).checked_sub(*end));
                if spare.is_none() && self.late == 0 {
                    println!(
                        "row {row}, instance {instance} is late under gap {gap}, starts {starts:?}"
                    );
                    println!("{}", String::from_utf8_lossy(&file_of(rows)));
                }
                self.instances += 1;
                self.late += u64::from(spare.is_none());
                self.just_in_time += u64::from(spare == Some(0));
            }
        }
        self.schedules += 1;
    }

    /// Both simulators give the same schedule for the same lengths and faults.
    fn follow_ticks(&mut self, random: &mut Random, drawn: &Drawn, gap: u64) {
        let starts: Starts = std::array::from_fn(|_| random.below(TICKS / 8));
        let target = random.below(drawn.rows.len() as u64) as usize;
        let aim = random.below(AIMS.len() as u64) as usize;
        let aimed = Aim::new(drawn, target, gap, 0, aim);
        let list = self.attempts(random, drawn, aimed, (&starts, TICKS));
        let faults: Vec<u64> = list.iter().filter_map(|attempt| attempt.fault).collect();
        let mut lengths = list.iter().map(|attempt| attempt.length);
        let mut length = || lengths.next().unwrap_or(1);
        let ticked = schedule_with_faults(&drawn.rows, &starts, TICKS, &faults, &mut length);
        // A fault of the last transmission may begin at the end of the ticks or later.
        let within = |attempt: &Attempt| Attempt {
            fault: attempt.fault.filter(|fault| *fault < TICKS),
            ..*attempt
        };
        self.ticked += 1;
        self.unequal += u64::from(list.iter().map(within).ne(ticked));
    }

    /// The lowest frame where its worst scenario meets takes its exact bound at the most.
    fn reach_bound(&mut self, random: &mut Random, drawn: &Drawn, gap: u64) {
        let row = lowest(&drawn.rows);
        let Some((worst, instants)) = worst_scenario(Some(gap), drawn, row) else {
            return;
        };
        let mut rows = drawn.rows.clone();
        rows[row][CLAIM] = 1;
        let mut lengths = Lent::new(random, &lengths::file_of(&drawn.lengths));
        let mut table = Lent::new(random, &file_of(&rows));
        let judged = library::judge_faults(&mut lengths, &mut table, row as u64, gap);
        let bound = (1 - Judged::new(judged).margin) as u64;
        let response = response(drawn, row, gap, (worst.q, &instants), bound);
        self.bounds += 1;
        self.met += u64::from(response == Some(bound));
        let within = response.is_some_and(|response| response <= bound);
        self.wrong += u64::from(!within || bound != worst.response);
    }
}

/// The greatest response of the q-th instance of a row from the tick where instants meet, with the largest
/// lengths and faults in last ticks from that tick on; none if it does not start within the bound.
fn response(drawn: &Drawn, row: usize, gap: u64, worst: (u64, &[u64]), bound: u64) -> Option<u64> {
    let (rows, (q, instants)) = (&drawn.rows, worst);
    let starts = starts_to_meet(instants);
    let meeting = starts[0] + instants[0];
    let queued = |n: &u64| release(&rows[row], &starts, *n) >= meeting;
    let instance = (0..).find(queued).expect("a later release") + q - 1;
    let queueing = release(&rows[row], &starts, instance);
    let of_aim = |aim: usize| {
        let mut aimed = Aim::new(drawn, row, gap, meeting, aim);
        let mut fate = |row: usize, start: u64| {
            let length = length(&drawn.lengths, &rows[row]);
            (length, aimed.fault(&mut Random::new(start), row, start, length))
        };
        let list = schedule(rows, &starts, queueing + bound, gap, &mut fate);
        let is_sent = |attempt: &&Attempt| attempt.fault.is_none() && attempt.instance == instance;
        let sent = list.iter().filter(|attempt| attempt.row == row).find(is_sent);
        sent.map(|sent| sent.free() - queueing)
    };
    let responses: Option<Vec<u64>> = LAST_TICKS.into_iter().map(of_aim).collect();
    responses?.into_iter().max()
}

/// Starts at which the worst scenario of the target meets, or any; and the earliest tick of a fault.
fn fault_starts(random: &mut Random, drawn: &Drawn, gap: u64, target: usize) -> (Starts, u64) {
    let worst = random.percent(60).then(|| blocked_starts(Some(gap), drawn, target)).flatten();
    let Some((starts, meeting)) = worst else {
        return (starts(random, &drawn.rows), 0);
    };
    (starts, random.pick(&[0, meeting.saturating_sub(1), meeting]))
}

/// The rows that the library certifies under a gap, of those not too much work.
fn certified_rows(random: &mut Random, drawn: &Drawn, gap: u64) -> Vec<usize> {
    let mut lengths = Lent::new(random, &lengths::file_of(&drawn.lengths));
    let mut table = Lent::new(random, &file_of(&drawn.rows));
    let cheap = |row: &usize| is_cheap_under(Some(gap), &drawn.lengths, &drawn.rows, *row);
    let is_certified = |row: &usize| {
        let answer = library::judge_faults(&mut lengths, &mut table, *row as u64, gap);
        [1, 2, 4].contains(&Judged::new(answer).verdict)
    };
    (0..drawn.rows.len()).filter(cheap).filter(is_certified).collect()
}
