//! Pseudo-random jobs that break rules at chosen places of the table.

use crate::job::{self, Equation, Job, MOST_COEFFICIENT, MOST_NUMBER, MOST_SIDE, MOST_WEIGHT};
use crate::made::{self, Size};
use crate::random::Random;

/// The places of the table, by their reasons. The later ones are more frequent, since an earlier one hides them.
const PLACES: [u8; 17] = [1, 2, 3, 4, 4, 5, 5, 5, 6, 6, 6, 6, 7, 7, 7, 7, 7];

/// A job with up to four faults, at any places of the table, so that their order counts; some numbers are at their limits and some ties
/// join nothing, which is lawful, and sometimes a bit somewhere is turned round.
pub fn spoiled(random: &mut Random) -> Vec<u8> {
    let size = random.pick(&[Size::Small, Size::Small, Size::Middle, Size::Middle, Size::Large]);
    let mut job = made::hidden(random, size);
    for _ in 0..random.between(0, 2) {
        set_to_limit(random, &mut job);
    }
    if random.chance(40) {
        some_row(random, &mut job.equations).into_iter().for_each(|tie| made::loosen(random, tie));
    }
    let places: Vec<u8> = (0..random.pick(&[0, 1, 1, 2, 2, 3, 4])).map(|_| random.pick(&PLACES)).collect();
    let mut bytes = broken(random, job, &places);
    if !bytes.is_empty() && random.chance(20) {
        let at = random.index(bytes.len());
        bytes[at] ^= 1 << random.index(8);
    }
    bytes
}

/// The job's bytes, with a fault at each of these places, as far as it has rows there.
fn broken(random: &mut Random, mut job: Job, places: &[u8]) -> Vec<u8> {
    for &place in places {
        spoil_row(random, &mut job, place);
    }
    let mut bytes = job::write(&job);
    for &place in places {
        spoil_header(random, &mut bytes, place);
    }
    if places.contains(&1) {
        bytes.truncate(random.pick(&[0, 3, 4, 8, 20, 22, 23]));
    }
    bytes
}

/// The first row, the last one or any.
fn some_row<'a, T>(random: &mut Random, rows: &'a mut [T]) -> Option<&'a mut T> {
    let last = rows.len().checked_sub(1)?;
    let any = random.index(rows.len());
    rows.get_mut(random.pick(&[0, last, any]))
}

/// Set a number of some row to one of its limits.
fn set_to_limit(random: &mut Random, job: &mut Job) {
    let sign = random.sign();
    if random.chance(50) {
        if let Some(count) = some_row(random, &mut job.counts) {
            match random.index(3) {
                0 => count.low = sign * MOST_NUMBER,
                1 => count.high = sign * MOST_NUMBER,
                _ => count.weight = sign * MOST_WEIGHT,
            }
        }
    } else if let Some(equation) = some_row(random, &mut job.equations) {
        match random.index(3) {
            0 => equation.a = sign * MOST_COEFFICIENT,
            1 => equation.b = sign * MOST_COEFFICIENT,
            _ => equation.c = sign * MOST_SIDE,
        }
    }
}

/// Break a rule of the rows: 5, 6 or 7.
fn spoil_row(random: &mut Random, job: &mut Job, place: u8) {
    let n = job.counts.len();
    let absent = random.pick(&[n, n + 1, 256, 65_535]);
    let (number, weight, coefficient) =
        (past(random, MOST_NUMBER), past(random, MOST_WEIGHT), past(random, MOST_COEFFICIENT));
    // the last is what two coefficients of one count may come to, and neither may be
    let coefficient = random.pick(&[coefficient, coefficient, 2 * MOST_COEFFICIENT]);
    let side = past(random, MOST_SIDE);
    let side = random.pick(&[side, i64::MIN, i64::MIN + 1, i64::MAX]);
    if place == 5 {
        if let Some(count) = some_row(random, &mut job.counts) {
            match random.index(3) {
                0 => count.low = number,
                1 => count.high = number,
                _ => count.weight = weight,
            }
        }
    } else if let Some(equation) = some_row(random, &mut job.equations) {
        // of two counts a wrong one is the higher
        let (higher, twice) = (equation.left.max(equation.right), random.chance(50));
        match (place, random.index(4)) {
            (6, 0) => equation.left = absent,
            (6, 1) => equation.right = absent,
            (6, _) => (equation.left, equation.right) = (absent, absent),
            (7, 0) => equation.a = coefficient,
            (7, 1) => equation.b = coefficient,
            (7, 2) if twice => *equation = Equation { left: higher, right: higher, a: coefficient, b: -coefficient, c: 0 },
            (7, _) => equation.c = side,
            _ => (),
        }
    }
}

/// A number just past the limit, or far past it; of either sign.
fn past(random: &mut Random, limit: i64) -> i64 {
    let far = if limit == MOST_SIDE { 1_000 * limit } else { i32::MAX.into() };
    random.sign() * random.pick(&[limit + 1, limit + 1, limit + 2, far])
}

/// Break a rule of the header: 2, 3 or 4, the last also by another length.
fn spoil_header(random: &mut Random, bytes: &mut Vec<u8>, place: u8) {
    match place {
        2 => bytes[random.index(4)] ^= 1 << random.index(8),
        3 if random.chance(50) => set_u16(bytes, 4, random.pick(&[257, 258, 512, 65_535])),
        3 => set_u16(bytes, 6, random.pick(&[1_025, 1_026, 2_048, 65_535])),
        4 => match random.index(5) {
            0 => bytes.truncate(24.max(bytes.len() - random.pick(&[1, 12, 20]))),
            1 => bytes.extend(vec![random.pick(&[0, 1, 255]); random.pick(&[1, 2, 12, 20, 100])]),
            _ => bytes[8 + random.index(16)] ^= 1 << random.index(8),
        },
        _ => (),
    }
}

fn set_u16(bytes: &mut [u8], at: usize, x: u16) {
    bytes[at..at + 2].copy_from_slice(&x.to_le_bytes());
}

#[cfg(test)]
mod tests {
    use super::*;

    /// A job with rows of both kinds.
    fn lawful(random: &mut Random) -> Job {
        loop {
            let job = made::hidden(random, Size::Middle);
            if !job.counts.is_empty() && !job.equations.is_empty() {
                return job;
            }
        }
    }

    #[test]
    fn first_place_counts() {
        let random = &mut Random::new(5, 0);
        for _ in 0..200 {
            for first in 1..=7 {
                for second in first + 1..=8 {
                    // at 8 there is nothing to break
                    let job = lawful(random);
                    let bytes = broken(random, job.clone(), &[second, first]);
                    let reason = job::read(&bytes).expect_err("a fault").reason;
                    // of 6 and 7 the one in the earlier row
                    let expected = if first == 6 && second == 7 { reason.clamp(6, 7) } else { first };
                    assert_eq!(reason, expected, "{first} and {second} in {job:?}");
                }
            }
        }
    }
}
