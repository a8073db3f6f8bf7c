//! The tables: every frame, the growth with the size of the job, the frames with cleared buffers, and frames with amendments.

use std::io::{self, Write};

use crate::agree::{agree, compared};
use crate::amendments::{self, MOST_AMENDMENTS};
use crate::frames::{Frame, Shape, JOBS};
use crate::hidden::Steps;
use crate::job;
use crate::machine;
use crate::measure::{self, AmendedTimes, Buffers, Times};
use crate::progress::Progress;

const JOBS_COMPARED: u64 = 20_000;
const SIZES: [usize; 4] = [32, 64, 128, 256];
/// Shapes of which the growth is shown.
const GROWING: [Shape; 3] = [Shape::Chain, Shape::Groups, Shape::Shuffled];
/// The frames that request #112 names.
const OF_THE_REQUEST: [Shape; 2] = [Shape::Chain, Shape::Groups];
/// Shapes that are timed with amendments too.
const AMENDED: [Shape; 3] = [Shape::Chain, Shape::Groups, Shape::Untied];

/// How often each job is timed.
const REPETITIONS: usize = 101;
const REPETITIONS_CLEARED: usize = 31;
const REPETITIONS_SHORT: usize = 7;

/// The agreement, and if all is well the whole table.
pub fn whole(out: &mut impl Write, seed: u64) -> io::Result<bool> {
    if !agree(out, seed, JOBS_COMPARED, 0)? || !frames_agree(out, seed, &timed_frames())? || !amended_agree(out, seed)? {
        return Ok(false);
    }
    head(out, seed)?;
    every_frame(out, seed, REPETITIONS, Buffers::AsLeft)?;
    growth(out, seed)?;
    every_frame(out, seed, REPETITIONS_CLEARED, Buffers::Cleared)?;
    with_amendments(out, seed, REPETITIONS)?;
    Ok(true)
}

/// Few repetitions, for a glance: the jobs that are timed agree, and the ratios are printed.
pub fn short(out: &mut impl Write, seed: u64) -> io::Result<bool> {
    if !frames_agree(out, seed, &Frame::all())? || !amended_agree(out, seed)? {
        return Ok(false);
    }
    head(out, seed)?;
    every_frame(out, seed, REPETITIONS_SHORT, Buffers::AsLeft)?;
    with_amendments(out, seed, REPETITIONS_SHORT)?;
    Ok(true)
}

fn timed_frames() -> Vec<Frame> {
    let mut frames = Frame::all();
    frames.extend(growing().into_iter().filter(|frame| !Frame::all().contains(frame)));
    frames
}

fn growing() -> Vec<Frame> {
    let kinds = GROWING.iter().flat_map(|&shape| [Steps::Small, Steps::Large].map(|steps| Frame::new(shape, steps)));
    kinds.flat_map(|frame| SIZES.map(|counts| Frame { counts, ..frame })).collect()
}

/// The jobs that are to be timed are compared as well.
fn frames_agree(out: &mut impl Write, seed: u64, frames: &[Frame]) -> io::Result<bool> {
    for frame in frames {
        for number in 0..JOBS {
            let (bytes, area) = (job::write(&frame.job(seed, number)), [0xA5; measure::AREA]);
            if let Err(found) = compared(&bytes, &[], &area) {
                writeln!(out, "bench: seed {seed}, frame {}, job {number} DIFFERS", frame.name())?;
                found.iter().try_for_each(|line| writeln!(out, "bench: {line}"))?;
                return Ok(false);
            }
        }
    }
    writeln!(out, "bench: the {} jobs that are timed agree too", frames.len() as u64 * JOBS)?;
    Ok(true)
}

/// Of the frames with amendments too; and that they are planned as without.
fn amended_agree(out: &mut impl Write, seed: u64) -> io::Result<bool> {
    let frames = amended_frames();
    for frame in &frames {
        for number in 0..JOBS {
            let ((other, all), area) = (frame.amended(seed, number), [0xA5; measure::AREA]);
            let with = compared(&job::write(&other), &amendments::write(&all), &area);
            if with != compared(&job::write(&frame.job(seed, number)), &[], &area) {
                writeln!(out, "bench: seed {seed}, frame {}, job {number} DIFFERS with amendments", frame.name())?;
                with.err().iter().flatten().try_for_each(|line| writeln!(out, "bench: {line}"))?;
                return Ok(false);
            }
        }
    }
    writeln!(
        out,
        "bench: {} jobs with {MOST_AMENDMENTS} amendments agree, and are planned as without",
        frames.len() as u64 * JOBS
    )?;
    Ok(true)
}

fn amended_frames() -> Vec<Frame> {
    Frame::all().into_iter().filter(|frame| AMENDED.contains(&frame.shape)).collect()
}

fn head(out: &mut impl Write, seed: u64) -> io::Result<()> {
    writeln!(out)?;
    machine::lines().iter().try_for_each(|line| writeln!(out, "{line}"))?;
    writeln!(out, "inputs:  {JOBS} jobs to a frame, seed {seed}; `bench --help` says what each frame is")?;
    writeln!(
        out,
        "figures: microseconds of a plan, reading the job and writing the sheet included: the mean over the jobs"
    )?;
    writeln!(out, "         of each one's minimum, and of each one's median; in turn ours, plain, ours, plain, ..")
}

fn every_frame(out: &mut impl Write, seed: u64, repetitions: usize, buffers: Buffers) -> io::Result<()> {
    writeln!(out, "\n256 counts, 1,024 equations (untied: none); each job {repetitions} times; {}", told(buffers))?;
    writeln!(out, "{:<18}{:>28}{:>28}", "", "minimum", "median")?;
    writeln!(out, "{:<18}{:>10}{:>10}{:>8}{:>10}{:>10}{:>8}", "frame", "ours", "plain", "ratio", "ours", "plain", "ratio")?;
    let frames = Frame::all();
    let mut progress = Progress::new("frames timed", frames.len() as u64);
    let mut ratios = Vec::new();
    for (done, frame) in (1..).zip(&frames) {
        let times = measure::frame(frame, seed, repetitions, buffers);
        writeln!(out, "{}", row(frame, &times))?;
        out.flush()?;
        ratios.push((times.ratio().minimum, *frame));
        progress.done(done);
    }
    let asked: Vec<(f64, Frame)> =
        ratios.iter().copied().filter(|(_, frame)| OF_THE_REQUEST.contains(&frame.shape)).collect();
    writeln!(out, "greatest ratio of minima: {}; of the two that #112 names: {}", greatest(&ratios), greatest(&asked))
}

fn told(buffers: Buffers) -> String {
    match buffers {
        Buffers::AsLeft => "buffers not cleared: a call writes over the sheet of the one before".to_string(),
        Buffers::Cleared => format!(
            "buffers cleared: before each call,\n\
             off the clock, the area is set to zeros and {} MB elsewhere are written, so that job and area leave near caches",
            measure::OTHER_BYTES >> 20
        ),
    }
}

fn row(frame: &Frame, times: &Times) -> String {
    let (ours, plain, ratio) = (times.ours, times.plain, times.ratio());
    format!(
        "{:<18}{:>10.1}{:>10.1}{:>8.2}{:>10.1}{:>10.1}{:>8.2}",
        frame.name(),
        ours.minimum,
        plain.minimum,
        ratio.minimum,
        ours.median,
        plain.median,
        ratio.median
    )
}

fn greatest(ratios: &[(f64, Frame)]) -> String {
    let most = ratios.iter().max_by(|x, y| x.0.total_cmp(&y.0));
    most.map_or_else(String::new, |(ratio, frame)| format!("{ratio:.2} ({})", frame.name()))
}

/// How the times grow with the size of the job.
fn growth(out: &mut impl Write, seed: u64) -> io::Result<()> {
    writeln!(out, "\ngrowth: four equations to a count; minimum; each job {REPETITIONS} times; {}", told(Buffers::AsLeft))?;
    writeln!(
        out,
        "{:<18}{:>7}{:>10}{:>10}{:>10}{:>8}   to half the counts: ours, plain",
        "frame", "counts", "equations", "ours", "plain", "ratio"
    )?;
    let frames = growing();
    let mut progress = Progress::new("rows of the growth timed", frames.len() as u64);
    let mut before: Option<(Frame, Times)> = None;
    for (done, frame) in (1..).zip(frames) {
        let times = measure::frame(&frame, seed, REPETITIONS, Buffers::AsLeft);
        let half = before.filter(|(half, _)| half.counts * 2 == frame.counts).map(|(_, times)| times);
        writeln!(out, "{}", growth_row(&frame, &times, half))?;
        out.flush()?;
        before = Some((frame, times));
        progress.done(done);
    }
    Ok(())
}

fn growth_row(frame: &Frame, times: &Times, half: Option<Times>) -> String {
    let (ours, plain, ratio) = (times.ours.minimum, times.plain.minimum, times.ratio().minimum);
    let (name, counts) = (Frame::new(frame.shape, frame.steps).name(), frame.counts);
    let row = format!("{name:<18}{counts:>7}{:>10}{ours:>10.1}{plain:>10.1}{ratio:>8.2}", 4 * counts);
    match half.map(|half| (ours / half.ours.minimum, plain / half.plain.minimum)) {
        Some((ours, plain)) => format!("{row}{ours:>11.2}{plain:>8.2}"),
        None => row,
    }
}

/// What amendments add: the bounds of a frame come from the job's rows, or from amendments in force.
fn with_amendments(out: &mut impl Write, seed: u64, repetitions: usize) -> io::Result<()> {
    writeln!(
        out,
        "\n{MOST_AMENDMENTS} amendments, two to a count in any order, the second of which is in force, beside the same frame without;"
    )?;
    writeln!(out, "minimum; each job {repetitions} times; {}", told(Buffers::AsLeft))?;
    writeln!(out, "{:<18}{:>28}{:>28}{:>8}", "", "ours", "plain", "with")?;
    writeln!(
        out,
        "{:<18}{:>10}{:>10}{:>8}{:>10}{:>10}{:>8}{:>8}",
        "frame", "without", "with", "more", "without", "with", "more", "ratio"
    )?;
    let mut added = Vec::new();
    for frame in amended_frames() {
        let times = measure::amended(&frame, seed, repetitions);
        writeln!(out, "{}", amended_row(&frame, &times))?;
        out.flush()?;
        added.push((times.with.ours.minimum / times.without.ours.minimum - 1.0, frame));
    }
    let tied: Vec<(f64, Frame)> = added.iter().copied().filter(|(_, frame)| frame.shape != Shape::Untied).collect();
    let (most, most_tied) = (greatest(&added), greatest(&tied));
    writeln!(out, "most that they add to a plan of ours, as a part of it: {most}; with 1,024 equations: {most_tied}")
}

fn amended_row(frame: &Frame, AmendedTimes { without, with }: &AmendedTimes) -> String {
    let [ours, plain, ours_with, plain_with] =
        [without.ours, without.plain, with.ours, with.plain].map(|figures| figures.minimum);
    format!(
        "{:<18}{ours:>10.1}{ours_with:>10.1}{:>8.1}{plain:>10.1}{plain_with:>10.1}{:>8.1}{:>8.2}",
        frame.name(),
        ours_with - ours,
        plain_with - plain,
        with.ratio().minimum
    )
}
