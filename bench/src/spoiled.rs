//! Jobs that break the rules at chosen places of the table of reasons.

use crate::job::{self, Job, MOST_COEFFICIENT, MOST_COUNTS, MOST_EQUATIONS, MOST_NUMBER, MOST_SIDE, MOST_WEIGHT};
use crate::random::Random;

/// The job's bytes with one fault or two, so that their order counts; sometimes with a bit turned round.
pub fn spoiled(random: &mut Random, mut job: Job) -> Vec<u8> {
    let places: Vec<u32> = (0..random.pick(&[1, 1, 1, 2])).map(|_| random.pick(&[1, 2, 3, 4, 5, 6, 7])).collect();
    for &place in &places {
        match place {
            3 => enlarge(random, &mut job),
            5 => spoil_count(random, &mut job),
            6 => spoil_names(random, &mut job),
            7 => spoil_sides(random, &mut job),
            _ => (),
        }
    }
    let mut bytes = job::write(&job);
    for &place in &places {
        match place {
            1 => bytes.truncate(random.index(24)),
            2 if bytes.len() >= 4 => bytes[random.index(4)] ^= 1 << random.index(8),
            4 => spoil_header(random, &mut bytes),
            _ => (),
        }
    }
    if !bytes.is_empty() && random.chance(10) {
        let at = random.index(bytes.len());
        bytes[at] ^= 1 << random.index(8);
    }
    bytes
}

/// As many rows as there can be, or one too many.
fn enlarge(random: &mut Random, job: &mut Job) {
    if let Some(&last) = job.counts.last() {
        job.counts.resize(random.pick(&[MOST_COUNTS, MOST_COUNTS + 1]), last);
    }
    if let Some(&last) = job.equations.last() {
        job.equations.resize(random.pick(&[MOST_EQUATIONS, MOST_EQUATIONS + 1]), last);
    }
}

fn spoil_count(random: &mut Random, job: &mut Job) {
    if let Some(count) = some_row(random, &mut job.counts) {
        match random.index(3) {
            0 => count.low = past(random, MOST_NUMBER) as i32,
            1 => count.high = past(random, MOST_NUMBER) as i32,
            _ => count.weight = past(random, MOST_WEIGHT) as i32,
        }
    }
}

fn spoil_names(random: &mut Random, job: &mut Job) {
    let n = job.counts.len() as u16;
    if let Some(equation) = some_row(random, &mut job.equations) {
        let absent = random.pick(&[n, n + 1, 256, 65_535]);
        match random.index(3) {
            0 => equation.left = absent,
            1 => equation.right = absent,
            _ => (equation.left, equation.right) = (absent, absent),
        }
    }
}

fn spoil_sides(random: &mut Random, job: &mut Job) {
    let (coefficient, side) = (past(random, MOST_COEFFICIENT) as i32, past(random, MOST_SIDE));
    if let Some(equation) = some_row(random, &mut job.equations) {
        match random.index(4) {
            0 => equation.a = random.pick(&[coefficient, coefficient, i32::MIN]),
            1 => equation.b = random.pick(&[coefficient, coefficient, i32::MIN]),
            2 => (equation.right, equation.a, equation.b) = (equation.left, coefficient, -coefficient),
            _ => equation.c = random.pick(&[side, side, i64::MIN, i64::MAX]),
        }
    }
}

/// The first row, the last one or any.
fn some_row<'a, T>(random: &mut Random, rows: &'a mut [T]) -> Option<&'a mut T> {
    let last = rows.len().checked_sub(1)?;
    let any = random.index(rows.len());
    rows.get_mut(random.pick(&[0, last, any]))
}

/// The limit itself, which is lawful, or a number past it; of either sign.
fn past(random: &mut Random, limit: i64) -> i64 {
    random.sign() * random.pick(&[limit, limit + 1, limit + 1, limit + 2, 2 * limit])
}

/// A field of the header, or the length.
fn spoil_header(random: &mut Random, bytes: &mut Vec<u8>) {
    match random.index(3) {
        0 => bytes.truncate(bytes.len().saturating_sub(random.pick(&[1, 12, 20]))),
        1 => bytes.extend(vec![0; random.pick(&[1, 12, 20])]),
        _ if bytes.len() >= 24 => {
            // n, m, the two offsets, the length, the zeros
            let at = random.pick(&[4, 6, 8, 12, 16, 20, 23]);
            bytes[at] = bytes[at].wrapping_add(random.pick(&[1, 255, 24]));
        }
        _ => (),
    }
}
