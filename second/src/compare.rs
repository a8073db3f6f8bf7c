//! Runs another planner on many pseudo-random jobs and amendments, and compares what it prints with what this one prints.

use std::fs;
use std::io::{self, Read, Write};
use std::path::{Path, PathBuf};
use std::process::{self, Child, Command, Stdio};
use std::sync::atomic::{AtomicU64, Ordering};
use std::sync::Mutex;
use std::{env, thread};

use crate::amendments::{amended, drawn};
use crate::damaged;
use crate::job;
use crate::made::{self, Size};
use crate::plan::{plan, Outcome};
use crate::print::{print, print_map};
use crate::random::Random;
use crate::results::Results;
use crate::spoiled;

/// How many run at a time, and how many differences are shown.
const WORKERS: usize = 2;
const SHOWN: u64 = 5;
/// The bytes and both prints of a difference are written here.
pub const FOLDER: &str = concat!(env!("CARGO_MANIFEST_DIR"), "/target/differences");

/// What jobs a comparison goes through.
#[derive(Clone, Copy)]
pub enum Kind {
    /// all kinds, most of them lawful
    Mixed,
    /// with up to four faults at chosen places of the table
    Spoiled,
}

impl Kind {
    /// How many amendments in a hundred have faults.
    fn faulty(self) -> i64 {
        match self {
            Kind::Mixed => 20,
            Kind::Spoiled => 70,
        }
    }
}

/// What the program is given: a job, amendments in a file where there are any, and whether the map is to be printed too.
pub struct Input {
    pub job: Vec<u8>,
    pub amendments: Option<Vec<u8>>,
    map: bool,
}

impl Input {
    /// Settled by the kind, the seed and its number.
    pub fn new(kind: Kind, seed: u64, number: u64) -> Input {
        let random = &mut Random::new(seed, number);
        let mut job = match kind {
            Kind::Mixed => mixed(random),
            Kind::Spoiled => spoiled::spoiled(random),
        };
        let amendments = drawn::for_job(random, &mut job, kind.faulty());
        Input { job, amendments, map: random.chance(30) }
    }

    pub fn amendments(&self) -> &[u8] {
        self.amendments.as_deref().unwrap_or_default()
    }

    /// What this planner prints, and the outcome.
    fn printed(&self) -> (String, Outcome) {
        let outcome = plan(&self.job, self.amendments());
        let mut text = print(&outcome);
        if let (true, Ok(job)) = (self.map, amended(&self.job, self.amendments())) {
            text += &print_map(&job);
        }
        (text, outcome)
    }
}

fn mixed(random: &mut Random) -> Vec<u8> {
    match random.index(100) {
        0..=24 => job::write(&made::hidden(random, Size::Small)),
        25..=32 => job::write(&made::wild(random, 5)),
        33..=34 => job::write(&made::wild(random, 40)),
        35..=59 => job::write(&made::hidden(random, Size::Middle)),
        60..=74 => job::write(&made::hidden(random, Size::Large)),
        75..=89 => damaged::damaged(random),
        90..=94 => damaged::at_limits(random),
        _ => damaged::of_any_length(random),
    }
}

/// Compare on so many jobs; whether all is well. The last line says what was done.
pub fn compare(kind: Kind, program: &str, seed: u64, jobs: u64) -> io::Result<bool> {
    let (next, results) = (AtomicU64::new(0), Mutex::new(Results::default()));
    let work = |runner: Runner| -> io::Result<()> {
        loop {
            let number = next.fetch_add(1, Ordering::Relaxed);
            if number >= jobs {
                return Ok(());
            }
            compare_one(&runner, &Input::new(kind, seed, number), number, &results)?;
        }
    };
    thread::scope(|scope| {
        let start = |at| scope.spawn(move || work(Runner::new(program, at)));
        let workers: Vec<_> = (0..WORKERS).map(start).collect();
        workers.into_iter().try_for_each(|worker| worker.join().expect("a worker does not panic"))
    })?;
    let results = results.into_inner().expect("no worker has panicked");
    Ok(results.report(kind, seed, jobs))
}

fn compare_one(runner: &Runner, input: &Input, number: u64, results: &Mutex<Results>) -> io::Result<()> {
    let (wanted, outcome) = input.printed();
    // every eighth job comes in pieces, as a slow sender's would
    let piece = match number % 8 {
        0 => input.job.len() / 5 + 1,
        _ => input.job.len() + 1,
    };
    let printed = runner.run(input, piece)?;
    let mut results = results.lock().expect("no worker has panicked");
    results.add(input, &outcome);
    if printed != wanted {
        results.different += 1;
        if results.different <= SHOWN {
            show(number, input, &printed, &wanted)?;
        }
    }
    Ok(())
}

/// Runs the program, with a file of its own for amendments.
struct Runner<'a> {
    program: &'a str,
    file: PathBuf,
}

impl Runner<'_> {
    fn new(program: &str, number: usize) -> Runner<'_> {
        Runner { program, file: env::temp_dir().join(format!("second-{}-{number}.amendments", process::id())) }
    }

    /// What the program prints for this input, with a line at the end if it did not end with status 0.
    fn run(&self, input: &Input, piece: usize) -> io::Result<String> {
        let mut command = Command::new(self.program);
        match &input.amendments {
            Some(amendments) => {
                fs::write(&self.file, amendments)?;
                command.arg(if input.map { "map" } else { "plan" }).arg(&self.file)
            }
            None => command.args(input.map.then_some("map")),
        };
        let started = command.stdin(Stdio::piped()).stdout(Stdio::piped()).spawn();
        let mut child = started.map_err(|error| io::Error::other(format!("cannot run {}: {error}", self.program)))?;
        let mut printed = Vec::new();
        feed_and_read(&mut child, &input.job, piece, &mut printed)?;
        let status = child.wait()?;
        let mut printed = String::from_utf8_lossy(&printed).into_owned();
        if !status.success() {
            printed += &format!("({status})\n");
        }
        Ok(printed)
    }
}

impl Drop for Runner<'_> {
    fn drop(&mut self) {
        // where no job came with amendments there is no file
        let _ = fs::remove_file(&self.file);
    }
}

/// Write and read at the same time, so that neither side waits for the other.
fn feed_and_read(child: &mut Child, bytes: &[u8], piece: usize, printed: &mut Vec<u8>) -> io::Result<()> {
    let mut input = child.stdin.take().expect("standard input is a pipe");
    let output = child.stdout.as_mut().expect("standard output is a pipe");
    thread::scope(|scope| {
        scope.spawn(move || {
            for part in bytes.chunks(piece) {
                // a program that has read enough may close its end
                if input.write_all(part).is_err() {
                    break;
                }
                thread::yield_now();
            }
        });
        output.read_to_end(printed).map(|_| ())
    })
}

/// Print a difference from its first line on, and keep the bytes and both prints.
fn show(number: u64, input: &Input, printed: &str, wanted: &str) -> io::Result<()> {
    fs::create_dir_all(FOLDER)?;
    let file = Path::new(FOLDER).join(format!("{number}.job"));
    fs::write(&file, &input.job)?;
    fs::write(file.with_extension("amendments"), input.amendments())?;
    fs::write(file.with_extension("printed"), printed)?;
    fs::write(file.with_extension("wanted"), wanted)?;
    let at = printed.lines().zip(wanted.lines()).take_while(|(x, y)| x == y).count();
    println!("second: job {number} differs at line {}; its bytes and both prints are {}", at + 1, file.display());
    for (who, text) in [("the program", printed), ("second", wanted)] {
        println!("  {who} prints:");
        text.lines().skip(at).take(6).for_each(|line| println!("    {line}"));
    }
    Ok(())
}
