//! A native program to measure sabsim against. It has no proofs. It takes these command lines of sabsim:
//!
//! - `replay FILE` writes the plain report of a script;
//! - `judge --trace FILE` writes the plain verdict on a trace;
//! - `search --format json [--timeouts CHOICE] [--limit N] FILE` writes what a search through all schedules finds.

mod automata;
mod judge;
mod plan;
mod report;
mod script;
mod search;
mod shadow;
mod simulator;
mod trace;

use std::env;
use std::error::Error;
use std::fs::{self, File};
use std::io::{self, BufReader, BufWriter, Write};
use std::process::ExitCode;

use automata::Program;
use judge::Judge;
use plan::Plan;
use report::Report;
use search::{Search, Timeouts};
use simulator::Simulator;

const REFUSED: u8 = 1;
const WRONG_COMMAND: u8 = 2;
const RACES: u8 = 5;

fn main() -> ExitCode {
    let words: Vec<String> = env::args().skip(1).collect();
    let words: Vec<&str> = words.iter().map(String::as_str).collect();
    let done = match words[..] {
        ["replay", file] => replay(file).map(|()| ExitCode::SUCCESS),
        ["judge", "--trace", file] => judge(file).map(|races| if races { RACES.into() } else { ExitCode::SUCCESS }),
        ["search", "--format", "json", ref options @ .., file] => search_all(options, file).map(ExitCode::from),
        _ => {
            eprintln!("usage: native replay FILE | native judge --trace FILE | native search --format json FILE");
            return WRONG_COMMAND.into();
        }
    };
    done.unwrap_or_else(|error| {
        eprintln!("native: {error}");
        REFUSED.into()
    })
}

/// Writes the report of a script.
fn replay(file: &str) -> Result<(), Box<dyn Error>> {
    let text = fs::read(file)?;
    let plan = Plan::read(&text)?;
    let mut simulator = Simulator::new(&plan);
    let mut report = Report::new(BufWriter::with_capacity(1 << 16, io::stdout().lock()));
    for &next in &plan.schedule {
        report.entry(&simulator.step(next))?;
    }
    report.finish(&plan, &simulator)?;
    Ok(())
}

/// Writes the verdict on a trace, and returns whether there are races.
fn judge(file: &str) -> Result<bool, Box<dyn Error>> {
    let mut judge = Judge::new();
    trace::read(BufReader::with_capacity(1 << 16, File::open(file)?), |event| judge.add(event))?;
    let mut out = BufWriter::new(io::stdout().lock());
    judge.write(&mut out)?;
    out.flush()?;
    Ok(judge.has_races())
}

/// Writes what a search through all schedules finds, and returns the status.
fn search_all(options: &[&str], file: &str) -> Result<u8, Box<dyn Error>> {
    let (mut timeouts, mut limit) = (Timeouts::Early, 1_000_000);
    for option in options.chunks(2) {
        match *option {
            ["--timeouts", "early"] => timeouts = Timeouts::Early,
            ["--timeouts", "last"] => timeouts = Timeouts::Last,
            ["--timeouts", "never"] => timeouts = Timeouts::Never,
            ["--limit", number] => limit = number.parse()?,
            _ => return Err("a word isn't known".into()),
        }
    }
    let program = Program::read(&fs::read(file)?)?;
    let mut search = Search::new(&program, timeouts, limit);
    search.run();
    let mut out = BufWriter::new(io::stdout().lock());
    let status = search::write(&search, &mut out)?;
    out.flush()?;
    Ok(status)
}
