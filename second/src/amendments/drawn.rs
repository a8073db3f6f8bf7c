//! Pseudo-random amendments for a job.

use std::collections::BTreeMap;
use std::mem;

use super::{faults, in_force, write, Amendment, MOST_AMENDMENTS};
use crate::job::{self, Count, Job, MOST_NUMBER};
use crate::made::{self, Size};
use crate::random::Random;

/// For half of the jobs amendments are drawn, of which so many in a hundred have faults; the others come with no bytes of them, or None. The
/// bounds of a lawful job may change.
pub fn for_job(random: &mut Random, bytes: &mut Vec<u8>, faulty: i64) -> Option<Vec<u8>> {
    if random.chance(50) {
        return random.chance(50).then(Vec::new);
    }
    // where there are no rows to amend, those of another job
    let mut job = job::read_rows(bytes).unwrap_or_else(|_| made::hidden(random, Size::Small));
    let many = how_many(random);
    let mut all = lawful(random, &job, many);
    if job::read(bytes).is_ok() && random.chance(40) {
        exchange(&mut job, &mut all);
        *bytes = job::write(&job);
    }
    Some(if random.chance(faulty) { faults::spoiled(random, all, job.counts.len()) } else { write(&all) })
}

fn how_many(random: &mut Random) -> usize {
    let some = random.index(200);
    match random.index(100) {
        0..=2 => MOST_AMENDMENTS,
        3 => MOST_AMENDMENTS - 1,
        4..=9 => some,
        _ => random.pick(&[1, 2, 2, 3, 5, 8, 20]),
    }
}

/// So many of them, for some of the job's counts; none where it has no counts. Each supersedes the one before it for its count: an earlier
/// one is superseded already, and without any two would be in force.
pub fn lawful(random: &mut Random, job: &Job, many: usize) -> Vec<Amendment> {
    if job.counts.is_empty() {
        return Vec::new();
    }
    let numbers = numbers(random, many);
    let (counts, style) = (some_counts(random, job.counts.len()), random.pick(&[Style::Wider, Style::Wider, Style::Any]));
    let mut latest = BTreeMap::new();
    let amendment = |number| {
        let count = random.pick(&counts);
        let supersedes = latest.insert(count, number).unwrap_or(0);
        let (low, high) = style.bounds(random, &job.counts[count]);
        Amendment { number, supersedes, count, zero: 0, low, high }
    };
    numbers.into_iter().map(amendment).collect()
}

/// One count, a few, or all of them.
fn some_counts(random: &mut Random, n: usize) -> Vec<usize> {
    let mut counts: Vec<usize> = (0..n).collect();
    random.shuffle(&mut counts);
    counts.truncate(random.pick(&[1, 2, 3, 8, n]));
    counts
}

/// Numbers that rise: from 1 on or higher up, with gaps or without, across the middle of their range, or up to its end.
fn numbers(random: &mut Random, many: usize) -> Vec<u32> {
    let (most_gap, any) = (random.pick(&[1, 1, 1_000]), random.sized(1_000_000) as u32);
    let (middle, end) = ((1 << 31) - many as u32 / 2, u32::MAX - many as u32);
    let (before, most_gap) = random.pick(&[(0, most_gap), (0, most_gap), (any, most_gap), (middle, most_gap), (end, 1)]);
    let mut number = before;
    let mut next = || {
        number += random.between(1, most_gap) as u32;
        number
    };
    (0..many).map(|_| next()).collect()
}

/// What bounds are drawn.
#[derive(Clone, Copy)]
enum Style {
    /// those of the row, or wider ones: what fits goes on fitting
    Wider,
    Any,
}

impl Style {
    fn bounds(self, random: &mut Random, count: &Count) -> (i64, i64) {
        let (low, high) = (count.low, count.high);
        let (less, more) = (random.sized(2 * MOST_NUMBER) - 1, random.sized(2 * MOST_NUMBER) - 1);
        let wider = ((low - less).max(-MOST_NUMBER), (high + more).min(MOST_NUMBER));
        let full = (-MOST_NUMBER, MOST_NUMBER);
        if let Style::Wider = self {
            return random.pick(&[wider, wider, (low, high), full]);
        }
        let narrower = ((low + less).min(MOST_NUMBER), (high - more).max(-MOST_NUMBER));
        let any = (random.between(-MOST_NUMBER, MOST_NUMBER), random.between(-MOST_NUMBER, MOST_NUMBER));
        let (moved, limit) = (random.between(-9, 9), random.sign() * MOST_NUMBER);
        let near = |x: i64| (x + moved).clamp(-MOST_NUMBER, MOST_NUMBER);
        random.pick(&[
            wider,
            narrower,
            any,
            (high, low),
            (high, high),
            (near(low), high),
            (low, near(high)),
            (limit, limit),
            (MOST_NUMBER, -MOST_NUMBER),
        ])
    }
}

/// Put the bounds of the job's rows into the amendments in force, and theirs into the rows: so amended the job is what it was.
fn exchange(job: &mut Job, all: &mut [Amendment]) {
    for row in 0..all.len() {
        if in_force(all, row) {
            let amendment = &mut all[row];
            let count = &mut job.counts[amendment.count];
            mem::swap(&mut amendment.low, &mut count.low);
            mem::swap(&mut amendment.high, &mut count.high);
        }
    }
}

#[cfg(test)]
mod tests {
    use super::*;
    use crate::amendments::amended;
    use crate::made::{self, Size};

    /// They are lawful, and for each count the last one is in force. What is exchanged comes back.
    #[test]
    fn are_lawful() {
        let mut chains = 0;
        for number in 0..2_000 {
            let random = &mut Random::new(9, number);
            let job = made::hidden(random, Size::Small);
            let mut all = lawful(random, &job, 30);
            let mut wanted = job.clone();
            for amendment in &all {
                let count = &mut wanted.counts[amendment.count];
                (count.low, count.high) = (amendment.low, amendment.high);
            }
            let written = |job: &Job, all: &[Amendment]| amended(&job::write(job), &write(all)).map(|job| job::write(&job));
            assert_eq!(written(&job, &all), Ok(job::write(&wanted)));
            let mut other = job.clone();
            exchange(&mut other, &mut all);
            assert_eq!(written(&other, &all), Ok(job::write(&job)));
            chains += u32::from(all.iter().any(|amendment| amendment.supersedes != 0));
        }
        assert!(chains > 1_000, "only {chains} with a chain");
    }
}
