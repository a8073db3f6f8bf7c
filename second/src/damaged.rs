//! Pseudo-random bytes that are no job, or just one: damaged jobs, jobs at the limits, and bytes of any length.

use crate::job::{self, Job, MOST_COEFFICIENT, MOST_COUNTS, MOST_EQUATIONS, MOST_NUMBER, MOST_SIDE, MOST_WEIGHT};
use crate::made::{self, Size};
use crate::random::Random;

/// A job with one or two faults.
pub fn damaged(random: &mut Random) -> Vec<u8> {
    let size = random.pick(&[Size::Small, Size::Small, Size::Middle, Size::Middle, Size::Large]);
    let mut job = made::hidden(random, size);
    let mut bytes = job::write(&job);
    if random.chance(60) {
        for _ in 0..random.between(1, 2) {
            spoil_row(random, &mut job);
        }
        bytes = job::write(&job);
    }
    if random.chance(50) {
        for _ in 0..random.between(1, 2) {
            spoil_bytes(random, &mut bytes);
        }
    }
    bytes
}

/// Put a number out of range into some row, or let it name a wrong count.
fn spoil_row(random: &mut Random, job: &mut Job) {
    let n = job.counts.len();
    if n > 0 && (job.equations.is_empty() || random.chance(40)) {
        let at = random.index(n);
        let count = &mut job.counts[at];
        match random.index(3) {
            0 => count.low = past(random, MOST_NUMBER),
            1 => count.high = past(random, MOST_NUMBER),
            _ => count.weight = past(random, MOST_WEIGHT),
        }
    } else if !job.equations.is_empty() {
        let at = random.index(job.equations.len());
        let equation = &mut job.equations[at];
        let absent = random.pick(&[n, n + 1, 256, 65_535]);
        // the last is what two coefficients of one count may come to, and neither may be
        let wrong = past(random, MOST_COEFFICIENT);
        let wrong = random.pick(&[wrong, wrong, 2 * MOST_COEFFICIENT]);
        match random.index(8) {
            0 => equation.left = absent,
            1 => equation.right = absent,
            2 => (equation.left, equation.right) = (absent, absent),
            3 => equation.a = wrong,
            4 => equation.b = wrong,
            5 => (equation.right, equation.a, equation.b) = (equation.left, wrong, -wrong),
            6 => equation.c = past(random, MOST_SIDE),
            _ => equation.c = random.pick(&[i64::MIN, i64::MAX, i64::MIN + 1]),
        }
    }
}

/// The limit itself, which is lawful, a number just past it, or one far past it; of either sign.
fn past(random: &mut Random, limit: i64) -> i64 {
    let far = if limit == MOST_SIDE { 1_000 * limit } else { i32::MAX.into() };
    random.sign() * random.pick(&[limit, limit + 1, limit + 1, limit + 2, far])
}

/// Change some byte, the length, or a field of the header.
fn spoil_bytes(random: &mut Random, bytes: &mut Vec<u8>) {
    match random.index(7) {
        0 | 1 if !bytes.is_empty() => {
            let at = random.index(bytes.len());
            bytes[at] ^= 1 << random.index(8);
        }
        2 => bytes.truncate(random.index(bytes.len() + 1)),
        3 => bytes.truncate(random.index(30)),
        4 => bytes.extend(vec![random.pick(&[0, 1, 255]); random.pick(&[1, 2, 12, 20, 100])]),
        _ if bytes.len() >= 24 => spoil_header(random, bytes),
        _ => (),
    }
}

fn spoil_header(random: &mut Random, bytes: &mut [u8]) {
    // n, m, the two offsets, the length, the zeros; twice the mark
    let at = random.pick(&[0, 2, 4, 6, 8, 12, 16, 20]);
    let field = u16::from_le_bytes([bytes[at], bytes[at + 1]]);
    let changed = match random.index(4) {
        0 => field.wrapping_add(1),
        1 => field.wrapping_sub(1),
        2 => random.next() as u16,
        _ => field.swap_bytes(),
    };
    bytes[at..at + 2].copy_from_slice(&changed.to_le_bytes());
}

/// A job with as many counts and ties as there can be, or with one too many, and a right header.
pub fn at_limits(random: &mut Random) -> Vec<u8> {
    let mut job = made::hidden(random, Size::Large);
    if let Some(last) = job.counts.last().cloned() {
        job.counts.resize(random.pick(&[MOST_COUNTS, MOST_COUNTS, MOST_COUNTS + 1]), last);
    }
    if let Some(last) = job.equations.last().cloned() {
        job.equations.resize(random.pick(&[MOST_EQUATIONS, MOST_EQUATIONS, MOST_EQUATIONS + 1]), last);
    }
    if random.chance(20) {
        spoil_row(random, &mut job);
    }
    job::write(&job)
}

/// Bytes of any length, up to several times that of the longest lawful job (23,576): noise, or a job with a tail.
pub fn of_any_length(random: &mut Random) -> Vec<u8> {
    let lengths = [23_575, 23_576, 23_577, 24_576, 32_768, 65_535, 65_536, 65_537, 70_000, 100_000];
    let length = if random.chance(30) { random.index(64) } else { random.pick(&lengths) };
    let mut bytes = match random.index(4) {
        0 => Vec::new(),
        1 => job::write(&made::hidden(random, Size::Small)),
        2 => job::write(&made::hidden(random, Size::Large)),
        _ => at_limits(random),
    };
    let noisy = random.chance(50);
    while bytes.len() < length {
        bytes.push(if noisy { random.next() as u8 } else { 0 });
    }
    if random.chance(30) {
        bytes.truncate(length);
    }
    if bytes.len() >= 24 && random.chance(70) {
        bytes[..4].copy_from_slice(b"FIT1");
        let told = bytes.len() as u32;
        if random.chance(50) {
            bytes[16..20].copy_from_slice(&told.to_le_bytes());
        }
    }
    bytes
}
