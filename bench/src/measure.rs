//! Times of the archive and of the plain program on the same jobs, in microseconds.

use std::hint::black_box;
use std::time::Instant;

use crate::amendments;
use crate::archive;
use crate::frames::{Frame, JOBS};
use crate::job;
use crate::plain;

/// What a timed call finds.
#[derive(Clone, Copy, Debug, PartialEq, Eq)]
pub enum Buffers {
    /// the area as the call before left it, and all that is in the caches
    AsLeft,
    /// an area of zeros, and caches that have other bytes: both are done before the clock starts
    Cleared,
}

/// The length of the longest sheet.
pub const AREA: usize = 8_216;
/// What is written through to clear the caches: twice a second-level cache of 1 MB.
pub const OTHER_BYTES: usize = 2 << 20;

#[derive(Clone, Copy, Debug, Default)]
pub struct Figures {
    pub minimum: f64,
    pub median: f64,
}

#[derive(Clone, Copy, Debug, Default)]
pub struct Times {
    pub ours: Figures,
    pub plain: Figures,
}

impl Times {
    pub fn ratio(&self) -> Figures {
        Figures { minimum: self.ours.minimum / self.plain.minimum, median: self.ours.median / self.plain.median }
    }
}

/// The mean over the frame's jobs of each one's minimum, and of each one's median.
pub fn frame(frame: &Frame, seed: u64, repetitions: usize, buffers: Buffers) -> Times {
    let jobs = (0..JOBS).map(|number| job::write(&frame.job(seed, number)));
    let times: Vec<Times> = jobs.map(|job| one_job(&job, repetitions, buffers)).collect();
    Times { ours: mean(&times, |t| t.ours), plain: mean(&times, |t| t.plain) }
}

fn mean<T>(times: &[T], figures: fn(&T) -> Figures) -> Figures {
    let mean = |figure: fn(Figures) -> f64| times.iter().map(|t| figure(figures(t))).sum::<f64>() / times.len() as f64;
    Figures { minimum: mean(|f| f.minimum), median: mean(|f| f.median) }
}

/// In turn, ours, plain, ours, plain, so that what else the machine does falls on both.
fn one_job(job: &[u8], repetitions: usize, buffers: Buffers) -> Times {
    let mut room = Room::new(buffers);
    let (mut ours, mut plain) = (Vec::with_capacity(repetitions), Vec::with_capacity(repetitions));
    for _ in 0..repetitions {
        ours.push(room.timed(|area| archive::plan(black_box(job), &[], area)));
        plain.push(room.timed(|area| plain::plan(black_box(job), &[], area)));
    }
    Times { ours: figures(ours), plain: figures(plain) }
}

/// A frame, and the same with its bounds in amendments.
#[derive(Clone, Copy, Debug, Default)]
pub struct AmendedTimes {
    pub without: Times,
    pub with: Times,
}

/// The means over the frame's jobs, as above.
pub fn amended(frame: &Frame, seed: u64, repetitions: usize) -> AmendedTimes {
    let times: Vec<AmendedTimes> = (0..JOBS).map(|number| one_amended(frame, seed, number, repetitions)).collect();
    AmendedTimes {
        without: Times { ours: mean(&times, |t| t.without.ours), plain: mean(&times, |t| t.without.plain) },
        with: Times { ours: mean(&times, |t| t.with.ours), plain: mean(&times, |t| t.with.plain) },
    }
}

/// All four in turn.
fn one_amended(frame: &Frame, seed: u64, number: u64, repetitions: usize) -> AmendedTimes {
    let job = job::write(&frame.job(seed, number));
    let (other, amendments) = frame.amended(seed, number);
    let (other, amendments) = (job::write(&other), amendments::write(&amendments));
    let mut room = Room::new(Buffers::AsLeft);
    let mut times = [const { Vec::new() }; 4];
    for _ in 0..repetitions {
        times[0].push(room.timed(|area| archive::plan(black_box(&job), &[], area)));
        times[1].push(room.timed(|area| plain::plan(black_box(&job), &[], area)));
        times[2].push(room.timed(|area| archive::plan(black_box(&other), black_box(&amendments), area)));
        times[3].push(room.timed(|area| plain::plan(black_box(&other), black_box(&amendments), area)));
    }
    let [ours, plain, ours_with, plain_with] = times.map(figures);
    AmendedTimes { without: Times { ours, plain }, with: Times { ours: ours_with, plain: plain_with } }
}

/// What an empty call takes: the clock itself, which is in every figure.
pub fn clock() -> f64 {
    let mut room = Room::new(Buffers::AsLeft);
    figures((0..1_000).map(|_| room.timed(|_| ())).collect()).median
}

struct Room {
    area: Vec<u8>,
    other: Vec<u8>,
    turn: u8,
}

impl Room {
    fn new(buffers: Buffers) -> Room {
        let other = if buffers == Buffers::Cleared { OTHER_BYTES } else { 0 };
        Room { area: vec![0; AREA], other: vec![0; other], turn: 0 }
    }

    fn timed<T>(&mut self, call: impl FnOnce(&mut [u8]) -> T) -> f64 {
        if !self.other.is_empty() {
            self.area.fill(0);
            self.turn = self.turn.wrapping_add(1);
            black_box(&mut self.other).fill(self.turn);
        }
        let start = Instant::now();
        black_box(call(black_box(&mut self.area)));
        start.elapsed().as_secs_f64() * 1e6
    }
}

fn figures(mut times: Vec<f64>) -> Figures {
    times.sort_by(f64::total_cmp);
    Figures { minimum: times[0], median: times[times.len() / 2] }
}
