//! A hidden family of fit-outs, base + step·k over all counts, and equations that hold all along it: so a large job has
//! fit-outs, and its rings are redundant.

use crate::job::{Count, Equation, MOST_COEFFICIENT, MOST_NUMBER, MOST_WEIGHT};
use crate::random::Random;

#[derive(Clone, Copy, Debug, PartialEq, Eq)]
pub enum Steps {
    /// of up to 1,001, with many common factors
    Small,
    /// of up to 1,000,000
    Large,
}

pub struct Hidden {
    pub base: Vec<i64>,
    pub step: Vec<i64>,
}

const SMALL_STEPS: [i64; 14] = [1, 1, 2, 3, 4, 5, 6, 7, 12, 35, 60, 99, 250, 1_001];
const FACTORS: [i64; 8] = [1, 1, 1, 2, 3, -1, -5, 7];

impl Hidden {
    pub fn new(random: &mut Random, n: usize, steps: Steps) -> Hidden {
        let step = |random: &mut Random| match steps {
            Steps::Small => random.pick(&SMALL_STEPS),
            Steps::Large => random.between(1, MOST_COEFFICIENT),
        };
        let signed = |random: &mut Random| if random.chance(40) { -step(random) } else { step(random) };
        Hidden {
            base: (0..n).map(|_| random.between(-200_000_000, 200_000_000)).collect(),
            step: (0..n).map(|_| signed(random)).collect(),
        }
    }

    /// A tie of two counts, mostly without a common factor.
    pub fn tie(&self, random: &mut Random, p: usize, q: usize) -> Equation {
        let (p, q) = if random.chance(50) { (p, q) } else { (q, p) };
        let common = gcd(self.step[p], self.step[q]);
        let (a, b) = (self.step[q] / common, -self.step[p] / common);
        let factor = random.pick(&FACTORS);
        let factor = if a.abs().max(b.abs()) * factor.abs() <= MOST_COEFFICIENT { factor } else { 1 };
        self.through(0, p, q, a * factor, b * factor)
    }

    /// a·p + b·q = c, which holds at k at least.
    pub fn through(&self, k: i64, p: usize, q: usize, a: i64, b: i64) -> Equation {
        let c = a * (self.base[p] + self.step[p] * k) + b * (self.base[q] + self.step[q] * k);
        Equation { left: p as u16, right: q as u16, a: a as i32, b: b as i32, c }
    }

    /// Bounds that allow from k = −down to k = up, and a little more at either end.
    pub fn count(&self, random: &mut Random, i: usize, down: i64, up: i64, more: i64) -> Count {
        let (base, step) = (self.base[i], self.step[i].abs());
        let (down, up) = if self.step[i] > 0 { (down, up) } else { (up, down) };
        Count {
            low: (base - step * down - random.between(0, more)).max(-MOST_NUMBER) as i32,
            high: (base + step * up + random.between(0, more)).min(MOST_NUMBER) as i32,
            weight: random.between(-MOST_WEIGHT, MOST_WEIGHT) as i32,
        }
    }

    /// Bounds that leave some hundreds of fits.
    pub fn counts(&self, random: &mut Random) -> Vec<Count> {
        let count = |i| {
            let (down, up) = (random.between(100, 700), random.between(100, 700));
            self.count(random, i, down, up, 5)
        };
        (0..self.base.len()).map(count).collect()
    }
}

pub fn gcd(x: i64, y: i64) -> i64 {
    if y == 0 {
        x.abs()
    } else {
        gcd(y, x % y)
    }
}
