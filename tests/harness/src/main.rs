//! The library through its entries: beside the analyser, on simulated buses, and its speed.

mod answer;
mod bench;
mod bench_explain;
mod bench_sets;
mod bench_tables;
mod call;
mod compare;
mod damage;
mod explain;
mod explain_inputs;
mod explain_tally;
mod fault_calls;
mod faults;
mod faulty;
mod frame_lengths;
mod group_orders;
mod inputs;
mod lengths;
mod lent;
mod levels;
mod library;
mod limits;
mod log_call;
mod log_inputs;
mod log_tally;
mod logs;
mod orders;
mod repeats;
mod runs;
mod simulate;
mod slow;
mod starts;
mod tables;
mod tally;
mod worst;
mod yardstick;
mod yardstick_groups;

use std::io;
use std::process::ExitCode;

const USAGE: &str = "usage:
  harness random SEED COUNT [--save FILE]
  harness replay SEED NUMBER [--save FILE]
  harness before SEED COUNT [--save FILE]
  harness replay-before SEED NUMBER [--save FILE]
  harness simulate SEED COUNT
  harness frame-lengths SEED COUNT
  harness explain SEED COUNT [--save FILE]
  harness replay-explain SEED NUMBER [--save FILE]
  harness worst SEED COUNT [--save FILE]
  harness replay-worst SEED NUMBER [--save FILE]
  harness faults SEED COUNT
  harness logs SEED COUNT [--save FILE]
  harness replay-logs SEED NUMBER [--save FILE]
  harness levels SEED COUNT
  harness bench
  harness bench-explain
  harness repeats
  harness slow SEED MINUTES [--save FILE]
  harness time library|yardstick|analyser|plain.. < lengths and table";

fn main() -> ExitCode {
    let words: Vec<String> = std::env::args().skip(1).collect();
    let words: Vec<&str> = words.iter().map(String::as_str).collect();
    match run(&words) {
        Ok(true) => ExitCode::SUCCESS,
        Ok(false) => ExitCode::FAILURE,
        Err(error) => {
            eprintln!("{error}");
            ExitCode::from(2)
        }
    }
}

/// Runs a command; false means that a check failed.
fn run(words: &[&str]) -> io::Result<bool> {
    match words {
        ["random", seed, count, rest @ ..] => {
            runs::random(number(seed)?, number(count)?, save(rest)?)
        }
        ["replay", seed, input, rest @ ..] => {
            runs::ANY.replay(number(seed)?, number(input)?, save(rest)?)
        }
        ["before", seed, count, rest @ ..] => {
            runs::before(number(seed)?, number(count)?, save(rest)?)
        }
        ["replay-before", seed, input, rest @ ..] => {
            runs::BEFORE.replay(number(seed)?, number(input)?, save(rest)?)
        }
        ["simulate", seed, count] => Ok(simulate::simulate(number(seed)?, number(count)?)),
        ["frame-lengths", seed, count] => Ok(frame_lengths::run(number(seed)?, number(count)?)),
        ["explain", seed, count, rest @ ..] => {
            explain::run(number(seed)?, number(count)?, save(rest)?)
        }
        ["replay-explain", seed, input, rest @ ..] => {
            explain::replay(number(seed)?, number(input)?, save(rest)?)
        }
        ["worst", seed, count, rest @ ..] => worst::run(number(seed)?, number(count)?, save(rest)?),
        ["replay-worst", seed, input, rest @ ..] => {
            worst::replay(number(seed)?, number(input)?, save(rest)?)
        }
        ["faults", seed, count] => Ok(faults::run(number(seed)?, number(count)?)),
        ["logs", seed, count, rest @ ..] => logs::run(number(seed)?, number(count)?, save(rest)?),
        ["replay-logs", seed, input, rest @ ..] => {
            logs::replay(number(seed)?, number(input)?, save(rest)?)
        }
        ["levels", seed, count] => Ok(levels::measure(number(seed)?, number(count)?)),
        ["bench"] => bench::bench(),
        ["bench-explain"] => Ok(bench_explain::bench()),
        ["repeats"] => Ok(repeats::repeats()),
        ["slow", seed, minutes, rest @ ..] => {
            slow::search(number(seed)?, number(minutes)?, save(rest)?)
        }
        ["time", listers @ ..] if !listers.is_empty() => bench::time(listers),
        _ => Err(io::Error::other(USAGE)),
    }
}

fn number<T: std::str::FromStr>(word: &str) -> io::Result<T> {
    let error = || io::Error::other(format!("no number: {word}\n{USAGE}"));
    word.parse().map_err(|_| error())
}

fn save<'a>(words: &[&'a str]) -> io::Result<Option<&'a str>> {
    match words {
        [] => Ok(None),
        ["--save", path] => Ok(Some(path)),
        _ => Err(io::Error::other(USAGE)),
    }
}
