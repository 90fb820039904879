//! The analyser's commands.

use analyser::{
    busiest, cases, every_schedule, explain, faults, frame_length, frame_length_cases, judge_cases,
    judgement, lengths, listing, load_sheet, log_cases, log_check, million, replay, self_check,
    table_cases, worst,
};
use std::io::{self, Read, Write};
use std::process::ExitCode;

const USAGE: &str = "usage:
  analyser list < lengths and table
  analyser load-sheet < lengths and table
  analyser judge ROW < lengths and table
  analyser precise ROW < lengths and table
  analyser explain ROW < lengths and table
  analyser worst < lengths and table
  analyser faults GAP < lengths and table
  analyser frame-length KIND IDENTIFIER HEX
  analyser check-log LOGFILE < lengths and table
  analyser busiest LOGFILE WIDTH < lengths and table
  analyser simulate SEED LINES < lengths and table
  analyser million
  analyser self-check SEED COUNT
  analyser every-schedule SEED COUNT
  analyser table-cases stdin|stdout
  analyser judge-cases stdin|stdout
  analyser frame-length-cases stdin|stdout
  analyser log-cases stdin|stdout";

fn main() -> ExitCode {
    let words: Vec<String> = std::env::args().skip(1).collect();
    let words: Vec<&str> = words.iter().map(String::as_str).collect();
    match run(&words) {
        Ok(true) => ExitCode::SUCCESS,
        Ok(false) => ExitCode::FAILURE,
        Err(error) => {
            eprintln!("{error}");
            ExitCode::from(2)
        }
    }
}

/// Runs a command; false means that a check failed.
fn run(words: &[&str]) -> io::Result<bool> {
    match words {
        ["list"] => print(listing::list(&input()?).as_bytes()),
        ["load-sheet"] => print(load_sheet::load_sheet(&input()?).as_bytes()),
        ["judge", row] => {
            let input = input()?;
            let (lengths, file) = lengths::split(&input);
            let judged = judgement::judge_file(lengths, file, number(row)?);
            print(format!("{}\n", listing::judge_number(judged)).as_bytes())
        }
        ["precise", row] => {
            let input = input()?;
            let (lengths, file) = lengths::split(&input);
            let bound = judgement::precise_bound_file(lengths, file, number(row)?);
            print(format!("{}\n", listing::bound_number(bound)).as_bytes())
        }
        ["explain", row] => print(explain::explain(&input()?, number(row)?).as_bytes()),
        ["worst"] => print(worst::worst(&input()?).as_bytes()),
        ["faults", gap] => print(faults::list(&input()?, number(gap)?).as_bytes()),
        ["frame-length", kind, identifier, hex] => {
            let line = frame_length::line(kind, identifier, hex);
            print(line.ok_or_else(|| io::Error::other(USAGE))?.as_bytes())
        }
        ["check-log", file] => {
            print(log_check::check_log(&input()?, &std::fs::read(file)?).as_bytes())
        }
        ["busiest", file, width] => {
            let (input, log) = (input()?, std::fs::read(file)?);
            print(busiest::busiest(&input, &log, number(width)?).as_bytes())
        }
        ["simulate", seed, lines] => {
            print(&replay::simulate(&input()?, number(seed)?, number(lines)?))
        }
        ["million"] => print(format!("{:016x}\n", million::own_fingerprint()).as_bytes()),
        ["self-check", seed, count] => Ok(self_check::self_check(number(seed)?, number(count)?)),
        ["every-schedule", seed, count] => {
            Ok(every_schedule::every_schedule(number(seed)?, number(count)?))
        }
        ["table-cases", "stdin"] => print(&cases::stdin(&table_cases::all())),
        ["table-cases", "stdout"] => print(&cases::stdout(&table_cases::all())),
        ["judge-cases", "stdin"] => print(&cases::stdin(&judge_cases::all())),
        ["judge-cases", "stdout"] => print(&cases::stdout(&judge_cases::all())),
        ["frame-length-cases", "stdin"] => {
            print(&frame_length_cases::stdin(&frame_length_cases::all()))
        }
        ["frame-length-cases", "stdout"] => {
            print(&frame_length_cases::stdout(&frame_length_cases::all()))
        }
        ["log-cases", "stdin"] => print(&log_cases::stdin(&log_cases::all())),
        ["log-cases", "stdout"] => print(&log_cases::stdout(&log_cases::all())),
        _ => Err(io::Error::other(USAGE)),
    }
}

fn number<T: std::str::FromStr>(word: &str) -> io::Result<T> {
    let error = || io::Error::other(format!("no number: {word}\n{USAGE}"));
    word.parse().map_err(|_| error())
}

fn input() -> io::Result<Vec<u8>> {
    let mut bytes = Vec::new();
    io::stdin().read_to_end(&mut bytes)?;
    Ok(bytes)
}

fn print(bytes: &[u8]) -> io::Result<bool> {
    io::stdout().write_all(bytes)?;
    Ok(true)
}
