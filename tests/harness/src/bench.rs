//! The time of whole listings: the library beside a yardstick, the analyser and plain enumeration.

use crate::bench_sets::{sets, Table};
use crate::lent::Lent;
use crate::{library, yardstick};
use analyser::bounds::{rank, View};
use analyser::judgement::{Search, LIMITS};
use analyser::lengths::{self, LengthTable};
use analyser::listing::list_rows_by;
use analyser::random::Random;
use analyser::table::{self, Row};
use std::io::{self, Read, Write};
use std::process::{Child, Command, Stdio};
use std::time::{Duration, Instant};

/// Room for a listing.
const ROOM: usize = 4096;
/// Listers take turns for about so long, at most so often.
const TURNS: Duration = Duration::from_secs(1);
const MOST_TURNS: usize = 101;

const LEGEND: &str = "Time of whole listings, median of up to 101 runs in about a second.
scenarios, window: of the lowest-priority row that has a window
yardstick: the library's algorithm in Rust, written for speed; takes turns with the library
ratio: the library's time to the yardstick's in the same turn, median of the turns
analyser: passes over scenarios that cannot exceed one seen; plain: goes through all
faster: how many times as fast as plain enumeration the library is
>: stopped, or at least so much because of that";

/// Who lists an input, which is a file of lengths and then that of a table.
struct Lister {
    name: &'static str,
    list: fn(&[u8]) -> String,
}

const LISTERS: [Lister; 4] = [
    Lister { name: "library", list: library_listing },
    Lister { name: "yardstick", list: |input| list_by(input, yardstick::list) },
    Lister {
        name: "analyser",
        list: |input| list_by(input, |lengths, rows| list_rows_by(Search::Pruned, lengths, rows)),
    },
    Lister {
        name: "plain",
        list: |input| list_by(input, |lengths, rows| list_rows_by(Search::Plain, lengths, rows)),
    },
];

/// Those who take turns in one process, and after how many seconds that is stopped.
const PROCESSES: [(&[&str], u64); 3] =
    [(&["library", "yardstick"], 60), (&["analyser"], 5), (&["plain"], 3)];

/// The times of the turns and the listing, or the time after which it was stopped.
struct Measured {
    times: Vec<f64>,
    listing: Option<String>,
}

impl Measured {
    fn seconds(&self) -> f64 {
        median(&self.times)
    }
}

/// Measures all tables; false if a listing differs or a measurement fails.
pub fn bench() -> io::Result<bool> {
    println!("{LEGEND}");
    let mut same = true;
    for (title, tables) in sets() {
        println!("\n{title}");
        let [library, yardstick, analyser, plain] = LISTERS.map(|lister| lister.name);
        print_line(&[
            "",
            "rows",
            "scenarios",
            "window",
            library,
            yardstick,
            "ratio",
            analyser,
            plain,
            "faster",
        ]);
        for table in &tables {
            same &= measure_table(table).unwrap_or_else(|error| {
                println!("{}: {error}", table.name);
                false
            });
        }
    }
    Ok(same)
}

/// Prints the line of a table; false if two listings differ.
fn measure_table(Table { name, lengths, rows }: &Table) -> io::Result<bool> {
    let input = input_of(lengths, rows);
    let mut found = Vec::new();
    for (names, cap) in PROCESSES {
        found.extend(measure(names, cap, &input)?);
    }
    let [library, yardstick, analyser, plain] = &found[..] else {
        unreachable!("one for each lister")
    };
    let (scenarios, window) = extent(lengths, rows);
    print_line(&[
        name,
        &rows.len().to_string(),
        &scenarios,
        &window,
        &time_text(library),
        &time_text(yardstick),
        &turns_ratio(library, yardstick),
        &time_text(analyser),
        &time_text(plain),
        &ratio(plain, library),
    ]);
    let mut listings = found.iter().filter_map(|measured| measured.listing.as_ref());
    let first = listings.next();
    let same = listings.all(|listing| Some(listing) == first);
    if !same {
        println!("the listings differ");
    }
    Ok(same)
}

fn print_line(columns: &[&str]) {
    let rest: String = columns[1..].iter().map(|column| format!("{column:>10}")).collect();
    println!("{:<42}{rest}", columns[0]);
    let _ = io::stdout().flush();
}

/// Scenario count and window of the lowest row that has a window.
fn extent(lengths: &LengthTable, rows: &[Row]) -> (String, String) {
    let mut by_rank: Vec<usize> = (0..rows.len()).collect();
    by_rank.sort_by_key(|row| std::cmp::Reverse(rank(&rows[*row])));
    for row in by_rank {
        let view = View::new(lengths, rows, row);
        if let Some(window) = view.rough_window(LIMITS.window) {
            return (count_text(&view), window.to_string());
        }
    }
    ("-".into(), "-".into())
}

fn count_text(view: &View) -> String {
    let count = view.scenario_count();
    if count < 10_000_000 {
        return count.to_string();
    }
    let count: f64 = view.alignment_counts().map(|count| count as f64).product();
    format!("{count:.1e}")
}

fn time_text(measured: &Measured) -> String {
    match measured.seconds() {
        s if measured.listing.is_none() => format!(">{s:.0} s"),
        s if s < 1e-3 => format!("{:.1} us", s * 1e6),
        s if s < 1.0 => format!("{:.1} ms", s * 1e3),
        s => format!("{s:.2} s"),
    }
}

/// The median of the turns' ratios.
fn turns_ratio(one: &Measured, other: &Measured) -> String {
    if one.listing.is_none() {
        return "-".into();
    }
    let turns = one.times.iter().zip(&other.times);
    let ratios: Vec<f64> = turns.map(|(one, other)| one / other).collect();
    format!("{:.2}", median(&ratios))
}

/// How many times the one's time the other's is.
fn ratio(one: &Measured, other: &Measured) -> String {
    let least = match (&one.listing, &other.listing) {
        (_, None) => return "-".into(),
        (None, _) => ">",
        _ => "",
    };
    match one.seconds() / other.seconds() {
        times if times < 100.0 => format!("{least}{times:.1}"),
        times => format!("{least}{times:.0}"),
    }
}

fn median(numbers: &[f64]) -> f64 {
    let mut numbers = numbers.to_vec();
    numbers.sort_by(f64::total_cmp);
    numbers[numbers.len() / 2]
}

/// Runs the named listers as a process that is stopped at the cap.
fn measure(names: &[&str], cap: u64, input: &[u8]) -> io::Result<Vec<Measured>> {
    let mut command = Command::new(std::env::current_exe()?);
    command.arg("time").args(names).stdin(Stdio::piped()).stdout(Stdio::piped());
    let mut child = command.spawn()?;
    child.stdin.take().expect("a pipe").write_all(input)?;
    if !ends_within(&mut child, Duration::from_secs(cap))? {
        let stopped = |_| Measured { times: vec![cap as f64], listing: None };
        return Ok(names.iter().map(stopped).collect());
    }
    let output = child.wait_with_output()?;
    let text = String::from_utf8_lossy(&output.stdout);
    let found: Option<Vec<Measured>> = text.split_terminator("\n\n").map(measured).collect();
    let found = found.filter(|found| found.len() == names.len());
    found.ok_or_else(|| io::Error::other("a measurement failed"))
}

/// What is printed of one lister.
fn measured(text: &str) -> Option<Measured> {
    let (times, listing) = text.split_once('\n')?;
    let times = times.split(' ').map(|time| time.parse().ok()).collect::<Option<_>>()?;
    Some(Measured { times, listing: Some(listing.into()) })
}

fn ends_within(child: &mut Child, cap: Duration) -> io::Result<bool> {
    let end = Instant::now() + cap;
    while child.try_wait()?.is_none() {
        if Instant::now() >= end {
            child.kill()?;
            child.wait()?;
            return Ok(false);
        }
        std::thread::sleep(Duration::from_millis(2));
    }
    Ok(true)
}

/// Lists the input on standard input by the named listers in turns, and prints for each of them the
/// times in seconds and the listing.
pub fn time(names: &[&str]) -> io::Result<bool> {
    let find = |name: &&str| LISTERS.iter().find(|lister| lister.name == *name);
    let listers: Option<Vec<&Lister>> = names.iter().map(find).collect();
    let listers = listers.ok_or_else(|| io::Error::other("no such lister"))?;
    let mut input = Vec::new();
    io::stdin().read_to_end(&mut input)?;
    for (times, listing) in take_turns(&listers, &input) {
        println!("{}\n{listing}", times.join(" "));
    }
    Ok(true)
}

/// The times and the listing of each lister.
fn take_turns(listers: &[&Lister], input: &[u8]) -> Vec<(Vec<String>, String)> {
    let mut found = vec![(Vec::new(), String::new()); listers.len()];
    let begin = Instant::now();
    for turn in 0..MOST_TURNS {
        if turn > 0 && begin.elapsed() >= TURNS {
            break;
        }
        for (lister, (times, listing)) in listers.iter().zip(&mut found) {
            let start = Instant::now();
            *listing = (lister.list)(input);
            times.push(start.elapsed().as_secs_f64().to_string());
        }
    }
    found
}

/// The listing of accepted lengths and rows.
fn list_by(input: &[u8], list: fn(&LengthTable, &[Row]) -> String) -> String {
    let (lengths, file) = lengths::split(input);
    let lengths = lengths::parse(lengths).expect("accepted lengths");
    list(&lengths, &table::parse(file).expect("an accepted table"))
}

/// The file of lengths, and that of a table.
pub fn input_of(lengths: &LengthTable, rows: &[Row]) -> Vec<u8> {
    [lengths::file_of(lengths), table::file_of(rows)].concat()
}

pub fn library_listing(input: &[u8]) -> String {
    let random = &mut Random::new(0);
    let (lengths, file) = lengths::split(input);
    let mut out = Lent::new(random, &[0; ROOM]);
    let [mut lengths, mut file] = [lengths, file].map(|bytes| Lent::new(random, bytes));
    let written = library::list(&mut lengths, &mut file, &mut out);
    let written = usize::try_from(written).expect("an accepted table");
    String::from_utf8_lossy(&out.contents()[..written]).into()
}
