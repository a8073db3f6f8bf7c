//! The proved planner's archive and a plain program of document 000's method in i128, side by side: that they agree, and
//! what each takes. `bench --help` says how it is called.

mod agree;
mod amending;
mod amendments;
mod archive;
mod arithmetic;
mod frames;
mod graph;
mod hidden;
mod job;
mod machine;
mod made;
mod measure;
mod plain;
mod progress;
mod random;
mod sheet;
mod space;
mod spoiled;
mod table;
#[cfg(test)]
mod tests;

use std::hint::black_box;
use std::io::{self, Write};
use std::process::ExitCode;

use frames::{Frame, JOBS, SHAPES};

const USAGE: &str = "usage: bench [all [SEED]]                    compares on 20,000 jobs, then prints the tables
       bench short [SEED]                    compares the frames, then prints two tables, of few repetitions
       bench agree [SEED [JOBS [FIRST]]]     compares alone: outcome, and area byte for byte
       bench one WHO FRAME JOB TIMES [SEED]  plans one job of a frame so many times, for a profiler; WHO: ours, plain or none,
                                             or ours-amended or plain-amended, with its bounds in amendments
       bench job FRAME JOB [SEED] >FILE      writes that job";

/// What came of a command.
enum End {
    Well,
    /// something differs
    Failed,
    /// the words of the command are wrong, in this way
    Wrong(String),
}

fn main() -> ExitCode {
    let words: Vec<String> = std::env::args_os().skip(1).map(|word| word.to_string_lossy().into_owned()).collect();
    let words: Vec<&str> = words.iter().map(String::as_str).collect();
    match run(&words, &mut io::stdout().lock()) {
        Ok(End::Well) => ExitCode::SUCCESS,
        Ok(End::Failed) => ExitCode::FAILURE,
        Ok(End::Wrong(why)) => {
            eprintln!("bench: {why}\n{USAGE}");
            ExitCode::from(2)
        }
        Err(error) => {
            eprintln!("bench: {error}");
            ExitCode::FAILURE
        }
    }
}

fn run(words: &[&str], out: &mut impl Write) -> io::Result<End> {
    match *words {
        ["-h" | "--help"] => help(out),
        [] => all(&[], out),
        ["all", ref rest @ ..] => all(rest, out),
        ["short", ref rest @ ..] => timed(table::short, rest, out),
        ["agree", ref rest @ ..] => compare(rest, out),
        ["one", who, frame, job, times, ref rest @ ..] => one(who, [frame, job], times, rest),
        ["job", frame, job, ref rest @ ..] => write_job([frame, job], rest, out),
        ["one" | "job", ..] => wrong(format!("words are missing after `{}`", words[0])),
        [word, ..] => wrong(format!("there is no command `{word}`")),
    }
}

fn wrong(why: String) -> io::Result<End> {
    Ok(End::Wrong(why))
}

fn ended(well: bool) -> End {
    if well {
        End::Well
    } else {
        End::Failed
    }
}

fn help(out: &mut impl Write) -> io::Result<End> {
    writeln!(out, "{USAGE}\n")?;
    writeln!(
        out,
        "SEED is 1 and JOBS 20000 where not given. The status is 0; 1 where something differs; 2 where the words are wrong."
    )?;
    writeln!(
        out,
        "A frame has 256 counts and 1,024 equations, {JOBS} jobs from 0 on; FRAME/N has N counts and 4N equations. FRAME is"
    )?;
    writeln!(
        out,
        "untied, or one of these with -small or -large behind it, for steps of up to 1,001 or up to 1,000,000:\n"
    )?;
    SHAPES.iter().try_for_each(|(_, name, what)| writeln!(out, "    {name:<12}{what}"))?;
    Ok(End::Well)
}

fn all(words: &[&str], out: &mut impl Write) -> io::Result<End> {
    timed(table::whole, words, out)
}

/// Times of a build with overflow checks would say nothing.
fn timed<W: Write>(run: fn(&mut W, u64) -> io::Result<bool>, words: &[&str], out: &mut W) -> io::Result<End> {
    if cfg!(debug_assertions) {
        return wrong("nothing is timed in this build: build with --release".to_string());
    }
    match numbers(words, 1) {
        Ok(given) => run(out, *given.first().unwrap_or(&1)).map(ended),
        Err(why) => wrong(why),
    }
}

fn compare(words: &[&str], out: &mut impl Write) -> io::Result<End> {
    let (seed, jobs, first) = match numbers(words, 3).as_deref() {
        Ok([]) => (1, 20_000, 0),
        Ok(&[seed]) => (seed, 20_000, 0),
        Ok(&[seed, jobs]) => (seed, jobs, 0),
        Ok(&[seed, jobs, first, ..]) => (seed, jobs, first),
        Err(why) => return wrong(why.clone()),
    };
    if jobs == 0 {
        return wrong("JOBS is 1 or more".to_string());
    }
    agree::agree(out, seed, jobs, first).map(ended)
}

fn one(who: &str, place: [&str; 2], times: &str, words: &[&str]) -> io::Result<End> {
    let call: fn(&[u8], &[u8], &mut [u8]) = match who {
        "ours" | "ours-amended" => |job, amendments, area| _ = black_box(archive::plan(job, amendments, area)),
        "plain" | "plain-amended" => |job, amendments, area| _ = black_box(plain::plan(job, amendments, area)),
        "none" => |_, _, _| (),
        _ => return wrong(format!("`{who}` is not ours, plain or none, nor ours-amended or plain-amended")),
    };
    let ((frame, seed, job), times) = match (place_of(place, words), number(times)) {
        (Ok(place), Ok(times)) => (place, times),
        (Err(why), _) | (_, Err(why)) => return wrong(why),
    };
    let (job, all) = if who.ends_with("-amended") { frame.amended(seed, job) } else { (frame.job(seed, job), Vec::new()) };
    let (job, amendments, mut area) = (job::write(&job), amendments::write(&all), vec![0; measure::AREA]);
    (0..times).for_each(|_| call(black_box(&job), black_box(&amendments), black_box(&mut area)));
    Ok(End::Well)
}

fn write_job(place: [&str; 2], words: &[&str], out: &mut impl Write) -> io::Result<End> {
    match place_of(place, words) {
        Ok((frame, seed, job)) => out.write_all(&job::write(&frame.job(seed, job))).map(|()| End::Well),
        Err(why) => wrong(why),
    }
}

/// The frame, the seed and the number of a job by the words for it: frame, number, and the seed if given.
fn place_of([frame, job]: [&str; 2], words: &[&str]) -> Result<(Frame, u64, u64), String> {
    let frame = Frame::named(frame).ok_or_else(|| format!("there is no frame `{frame}`: bench --help names them"))?;
    let seed = *numbers(words, 1)?.first().unwrap_or(&1);
    Ok((frame, seed, number(job)?))
}

fn numbers(words: &[&str], most: usize) -> Result<Vec<u64>, String> {
    match words.get(most) {
        Some(word) => Err(format!("`{word}` is one word too many")),
        None => words.iter().map(|word| number(word)).collect(),
    }
}

fn number(word: &str) -> Result<u64, String> {
    word.parse().map_err(|_| format!("`{word}` is not a number from 0 on"))
}
