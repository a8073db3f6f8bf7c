//! A second planner, written from documents 01 and 02 and by another method, to compare the proved one with.
//!
//!     second plan [AMENDMENTS] <JOB                prints the plan of the job on standard input, amended by those in a file
//!     second compare PROGRAM [SEED [JOBS]]         runs PROGRAM on many jobs, and compares what it prints
//!     second spoiled PROGRAM [SEED [JOBS]]         the same, with faults at chosen places of the table
//!     second job SEED NUMBER >JOB                  writes a job of `compare`
//!     second amendments SEED NUMBER >AMENDMENTS    writes the amendments that it comes with
//!     second calls [SEED [CALLS [FIRST]]]          calls the planner's archive many times, and compares the outcome and both areas
//!     second workings [SEED [CALLS [FIRST]]]       the same with the archive's workings

mod amendments;
mod archive;
mod big;
mod call;
mod calls;
mod compare;
mod damaged;
mod fence;
mod fixes;
mod job;
mod kinds;
mod lent;
mod made;
mod map;
mod plain;
mod plan;
mod print;
mod random;
mod results;
#[cfg(test)]
mod search;
mod sheet;
mod spoiled;
mod stop;
mod tally;
#[cfg(test)]
mod tests;
#[cfg(test)]
mod traps;
mod workings;

use std::fs;
use std::io::{self, Read, Write};
use std::process::ExitCode;

use compare::{Input, Kind};

const USAGE: &str = "usage: second plan [AMENDMENTS] <JOB
       second compare PROGRAM [SEED [JOBS]]
       second spoiled PROGRAM [SEED [JOBS]]
       second job SEED NUMBER >JOB
       second amendments SEED NUMBER >AMENDMENTS
       second calls [SEED [CALLS [FIRST]]]
       second workings [SEED [CALLS [FIRST]]]";

fn main() -> ExitCode {
    let words: Vec<String> = std::env::args().skip(1).collect();
    let words: Vec<&str> = words.iter().map(String::as_str).collect();
    let done = match words[..] {
        ["--help"] => io::stdout().write_all(format!("{USAGE}\n").as_bytes()).map(|()| true),
        ["plan"] => plan_input(&[]),
        ["plan", file] => read_file(file).and_then(|amendments| plan_input(&amendments)),
        ["compare", program, ref rest @ ..] => compare_with(Kind::Mixed, program, rest),
        ["spoiled", program, ref rest @ ..] => compare_with(Kind::Spoiled, program, rest),
        ["job", seed, number] => write_input(seed, number, |input| &input.job),
        ["amendments", seed, number] => write_input(seed, number, Input::amendments),
        ["calls", ref rest @ ..] => sweep(calls::calls, rest),
        ["workings", ref rest @ ..] => sweep(workings::workings, rest),
        _ => usage(),
    };
    match done {
        Ok(true) => ExitCode::SUCCESS,
        Ok(false) => ExitCode::FAILURE,
        Err(error) => {
            eprintln!("second: {error}");
            ExitCode::FAILURE
        }
    }
}

fn read_file(name: &str) -> io::Result<Vec<u8>> {
    fs::read(name).map_err(|error| io::Error::other(format!("cannot read {name}: {error}")))
}

fn plan_input(amendments: &[u8]) -> io::Result<bool> {
    let mut bytes = Vec::new();
    io::stdin().read_to_end(&mut bytes)?;
    io::stdout().write_all(print::print(&plan::plan(&bytes, amendments)).as_bytes())?;
    Ok(true)
}

/// With seed 1 and 20,000 jobs, unless the words say otherwise.
fn compare_with(kind: Kind, program: &str, words: &[&str]) -> io::Result<bool> {
    let (seed, jobs) = match *words {
        [] => (Ok(1), Ok(20_000)),
        [seed] => (seed.parse(), Ok(20_000)),
        [seed, jobs] => (seed.parse(), jobs.parse()),
        _ => return usage(),
    };
    match (seed, jobs) {
        (Ok(seed), Ok(jobs)) => compare::compare(kind, program, seed, jobs),
        _ => usage(),
    }
}

/// A part of what `compare` gives the program.
fn write_input(seed: &str, number: &str, part: fn(&Input) -> &[u8]) -> io::Result<bool> {
    match (seed.parse(), number.parse()) {
        (Ok(seed), Ok(number)) => io::stdout().write_all(part(&Input::new(Kind::Mixed, seed, number))).map(|()| true),
        _ => usage(),
    }
}

/// With seed 1 and 100,000 calls from the first, unless the words say otherwise.
fn sweep(run: fn(u64, u64, u64) -> io::Result<bool>, words: &[&str]) -> io::Result<bool> {
    let numbers: Result<Vec<u64>, _> = words.iter().map(|word| word.parse()).collect();
    match numbers.as_deref() {
        Ok([]) => run(1, 100_000, 0),
        Ok(&[seed]) => run(seed, 100_000, 0),
        Ok(&[seed, calls]) => run(seed, calls, 0),
        Ok(&[seed, calls, first]) => run(seed, calls, first),
        _ => usage(),
    }
}

fn usage() -> io::Result<bool> {
    eprintln!("{USAGE}");
    Ok(false)
}
