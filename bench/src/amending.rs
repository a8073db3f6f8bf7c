//! Pseudo-random amendments for a job, lawful ones and such that break the rules.

use std::mem;

use crate::amendments::{self, Amendment, MOST_AMENDMENTS};
use crate::job::{Count, Job, MOST_NUMBER};
use crate::random::Random;

/// Some amendments of some counts; of one in five lists a row or two are spoiled. For a count every one supersedes the one before it.
pub fn amendments(random: &mut Random, job: &Job) -> Vec<u8> {
    let n = job.counts.len();
    if n == 0 {
        return amendments::write(&vec![amendment(1, 0, 0, (0, 9)); random.pick(&[0, 0, 1])]);
    }
    let (many, amended) = (random.pick(&[1, 2, 3, 5, 12, 60, MOST_AMENDMENTS]), random.pick(&[1, 2, 5, n]).min(n));
    let start = random.pick(&[0, 0, (1 << 31) - 2, u32::MAX - 600]);
    let wider = random.chance(60);
    let mut latest = vec![0; n];
    let mut all = Vec::new();
    for number in (start + 1..).take(many) {
        let count = random.index(amended);
        let bounds = some_bounds(random, job.counts[count], wider);
        all.push(amendment(number, mem::replace(&mut latest[count], number), count, bounds));
    }
    let faults = if random.chance(20) { random.pick(&[1, 2]) } else { 0 };
    for _ in 0..faults {
        spoil(random, &mut all, n as u16);
    }
    let mut bytes = amendments::write(&all);
    if faults > 0 && random.chance(15) {
        bytes.truncate(bytes.len() - random.pick(&[1, 10, 19]));
    }
    bytes
}

fn amendment(number: u32, supersedes: u32, count: usize, (low, high): (i32, i32)) -> Amendment {
    Amendment { number, supersedes, count: count as u16, zero: 0, low, high }
}

/// Wider ones than the count's, or any.
fn some_bounds(random: &mut Random, count: Count, wider: bool) -> (i32, i32) {
    let (low, high) = (i64::from(count.low), i64::from(count.high));
    let moved = random.pick(&[0, 1, 9, 1_000, MOST_NUMBER]);
    let (less, more) = (random.between(0, moved), random.between(0, moved));
    let wide = (low - less, high + more);
    let any = (random.between(-MOST_NUMBER, MOST_NUMBER), random.between(-MOST_NUMBER, MOST_NUMBER));
    let (low, high) =
        if wider { wide } else { random.pick(&[wide, any, (high, low), (low + less, high), (low, high - more)]) };
    (low.clamp(-MOST_NUMBER, MOST_NUMBER) as i32, high.clamp(-MOST_NUMBER, MOST_NUMBER) as i32)
}

/// Break a rule in some row, or have one too many.
fn spoil(random: &mut Random, all: &mut Vec<Amendment>, n: u16) {
    let row = random.index(all.len());
    let (before, any) = (all[row.saturating_sub(1)].number, all[random.index(all.len())].number);
    let this = &mut all[row];
    match random.index(8) {
        0 => this.zero = random.pick(&[1, 256]),
        1 => this.number = random.pick(&[0, before, before.saturating_sub(1)]),
        2 => this.count = random.pick(&[n, n + 1, 65_535]),
        3 => this.supersedes = any,
        4 | 5 => this.supersedes = 0,
        6 => {
            let past = random.pick(&[1_000_000_001, -1_000_000_001, i32::MIN, i32::MAX]);
            (this.low, this.high) = random.pick(&[(past, this.high), (this.low, past)]);
        }
        _ => {
            let last = all[all.len() - 1];
            all.resize(random.pick(&[MOST_AMENDMENTS, MOST_AMENDMENTS + 1]), last);
        }
    }
}

/// The job with its bounds moved into amendments, as many as there can be: two to a count, in any order, of which the second supersedes the
/// first and brings the count's own bounds. The rows have a low above the high, so that without them nothing fits.
pub fn in_amendments(random: &mut Random, mut job: Job) -> (Job, Vec<Amendment>) {
    let mut counts: Vec<usize> = (0..job.counts.len()).flat_map(|count| [count; 2]).collect();
    random.shuffle(&mut counts);
    let mut latest = vec![0; job.counts.len()];
    let mut all = Vec::new();
    for (number, count) in (1..).zip(counts) {
        let Count { low, high, .. } = job.counts[count];
        let bounds = if latest[count] == 0 { (high, low) } else { (low, high) };
        all.push(amendment(number, mem::replace(&mut latest[count], number), count, bounds));
    }
    job.counts.iter_mut().for_each(|count| (count.low, count.high) = (1, 0));
    (job, all)
}
