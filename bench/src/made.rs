//! Pseudo-random jobs, amendments and areas to compare on.

use crate::amending;
use crate::frames::{Frame, SHAPES};
use crate::graph::Graph;
use crate::hidden::{Hidden, Steps};
use crate::job::{self, Count, Equation, Job, MOST_COEFFICIENT, MOST_EQUATIONS, MOST_NUMBER, MOST_SIDE, MOST_WEIGHT};
use crate::random::Random;
use crate::sheet;
use crate::spoiled;

/// A planning call: the bytes of a job and of its amendments, and an area as lent.
pub struct Call {
    pub job: Vec<u8>,
    pub amendments: Vec<u8>,
    pub area: Vec<u8>,
}

impl Call {
    /// Settled by the seed and its number.
    pub fn new(seed: u64, number: u64) -> Call {
        let random = &mut Random::new(seed, number);
        let job = match random.index(100) {
            0..=24 => job::write(&small(random)),
            25..=54 => job::write(&large(random)),
            55..=74 => job::write(&framed(random)),
            _ => {
                let job = random.pick(&[small, small, large, framed])(random);
                spoiled::spoiled(random, job)
            }
        };
        // where there is no job to amend, that of another
        let amended = job::read(&job).unwrap_or_else(|_| small(random));
        let amendments = if random.chance(50) { amending::amendments(random, &amended) } else { Vec::new() };
        let length = area_length(random, &job);
        let first = random.next() as u8;
        let area = (0..length).map(|at| first.wrapping_add((at * 7) as u8)).collect();
        Call { job, amendments, area }
    }
}

/// As long as the sheet, longer, or shorter; where the job is refused anyway, any length.
fn area_length(random: &mut Random, bytes: &[u8]) -> usize {
    let exact = job::read(bytes).map_or(200, |job| sheet::length(job.counts.len(), Graph::new(&job).groups()));
    match random.index(20) {
        0..=9 => exact,
        10..=16 => exact + random.between(1, 300) as usize,
        17 => exact - 1,
        18 => random.index(exact),
        _ => random.pick(&[0, 23, 24, 8_216]),
    }
}

/// Few counts and low numbers: many rings, many conflicts, and every kind of rounding.
pub fn small(random: &mut Random) -> Job {
    let n = random.index(7);
    let mut counts: Vec<Count> = (0..n).map(|_| small_count(random)).collect();
    let point: Vec<i64> =
        counts.iter().map(|count| random.between(count.low.into(), count.high.max(count.low).into())).collect();
    let loose = random.pick(&[0, 0, 20, 50]);
    let ties = if n == 0 || n == 1 && loose == 0 { 0 } else { random.index(8) };
    let equations: Vec<Equation> = (0..ties).map(|_| small_tie(random, &point, loose)).collect();
    weigh(random, &mut counts, &equations);
    Job { counts, equations }
}

fn small_count(random: &mut Random) -> Count {
    let low = random.between(-6, 6) as i32;
    Count { low, high: low + random.between(-1, 12) as i32, weight: random.between(-3, 3) as i32 }
}

/// Mostly through the point. By a chance of `loose` in a hundred it joins nothing.
fn small_tie(random: &mut Random, point: &[i64], loose: i64) -> Equation {
    let (p, q) = if point.len() == 1 { (0, 0) } else { random.two_of(point.len()) };
    let (a, b) = (random.sign() * random.between(1, 4), random.sign() * random.between(1, 4));
    let (q, a, b) = if random.chance(loose) {
        random.pick(&[(q, a, 0), (q, 0, b), (q, 0, 0), (p, a, b), (p, a, -a)])
    } else {
        (q, a, b)
    };
    let beside = if random.chance(15) { random.between(-2, 2) } else { 0 };
    Equation { left: p as u16, right: q as u16, a: a as i32, b: b as i32, c: a * point[p] + b * point[q] + beside }
}

/// Groups of any size and form along a hidden family; some ties cross it, and hold for one member alone.
pub fn large(random: &mut Random) -> Job {
    let n = random.pick(&[1, 2, 3, 5, 8, 20, 60]);
    let steps = random.pick(&[Steps::Small, Steps::Small, Steps::Large]);
    let mut hidden = Hidden::new(random, n, steps);
    if random.chance(30) {
        hidden.base.iter_mut().for_each(|base| *base = random.between(-MOST_NUMBER, MOST_NUMBER));
    }
    let reach = random.pick(&[0, 1, 2, 2, 3, 3, 7, 100, 10_000, 1_000_000, MOST_NUMBER]);
    let mut equations = tied(random, &hidden, reach);
    random.shuffle(&mut equations);
    let mut counts: Vec<Count> = (0..n).map(|i| bounded(random, &hidden, i, reach)).collect();
    weigh(random, &mut counts, &equations);
    let mut job = Job { counts, equations };
    if random.chance(15) {
        shift(random, &mut job);
    }
    job
}

/// Part by part of the counts, in any order: a tree, and rings, of which some cross. Then ties that join nothing.
fn tied(random: &mut Random, hidden: &Hidden, reach: i64) -> Vec<Equation> {
    let crossing = random.pick(&[0, 0, 5, 20, 50]);
    let mut order: Vec<usize> = (0..hidden.base.len()).collect();
    random.shuffle(&mut order);
    let mut ties = Vec::new();
    while !order.is_empty() {
        let length = 1 + random.index(order.len());
        let part: Vec<usize> = order.drain(..length).collect();
        for i in 1..length {
            let any = random.index(i);
            let from = random.pick(&[i - 1, 0, any]);
            ties.push(tie(random, hidden, reach, crossing / 20, part[from], part[i]));
        }
        let rings = if length < 2 { 0 } else { random.pick(&[0, 1, 1, 3, length, 2 * length]) };
        for _ in 0..rings {
            let (p, q) = random.two_of(length);
            ties.push(tie(random, hidden, reach, crossing, part[p], part[q]));
        }
    }
    let fixing = random.chance(40);
    for _ in 0..random.pick(&[0, 0, 0, 1, 2, 10]) {
        ties.push(fix(random, hidden, reach, fixing));
    }
    let lawful = ties.into_iter().filter(|tie| tie.c.abs() <= MOST_SIDE);
    lawful.take(MOST_EQUATIONS).collect()
}

/// Along the family, or by that chance across it.
fn tie(random: &mut Random, hidden: &Hidden, reach: i64, crossing: i64, p: usize, q: usize) -> Equation {
    if random.chance(crossing) {
        crossed(random, hidden, reach, p, q)
    } else {
        hidden.tie(random, p, q)
    }
}

/// Through one fit-out of the family alone, mostly: often through the first or the last, or the next past it.
fn crossed(random: &mut Random, hidden: &Hidden, reach: i64, p: usize, q: usize) -> Equation {
    let (a, b) = (side(random), side(random));
    let k = if reach <= 100 { random.between(-reach - 1, reach + 1) } else { 0 };
    hidden.through(k, p, q, a, b)
}

/// A tie that joins nothing: one that fixes a count at the base or near it, or one that says nothing.
fn fix(random: &mut Random, hidden: &Hidden, reach: i64, fixing: bool) -> Equation {
    let (p, q) = (random.index(hidden.base.len()), random.index(hidden.base.len()));
    let (a, b) = (side(random), side(random));
    let (p, q, a, b) = if fixing {
        random.pick(&[(p, q, a, 0), (p, q, 0, b), (p, p, a, b), (p, p, a, a)])
    } else {
        random.pick(&[(p, q, 0, 0), (p, p, a, -a)])
    };
    let k = if reach <= 100 && random.chance(30) { random.between(-reach - 1, reach + 1) } else { 0 };
    hidden.through(k, p, q, a, b)
}

fn side(random: &mut Random) -> i64 {
    let any = random.between(1, MOST_COEFFICIENT);
    random.pick(&[1, 1, -1, 2, 3, -7, 1_000_000, -999_999, any])
}

/// Bounds about the base, up to so many steps away, as far as numbers go.
fn bounded(random: &mut Random, hidden: &Hidden, i: usize, reach: i64) -> Count {
    let (down, up) = (random.between(reach / 2, reach), random.between(reach / 2, reach));
    let (base, step) = (hidden.base[i], hidden.step[i].abs());
    let (down, up) = (step * down + random.between(0, step - 1), step * up + random.between(0, step - 1));
    let (low, high) = ((base - down).max(-MOST_NUMBER), (base + up).min(MOST_NUMBER));
    Count { low: low as i32, high: high as i32, weight: random.between(-MOST_WEIGHT, MOST_WEIGHT) as i32 }
}

/// A frame, some of them with a tie that crosses or has another right-hand side, and some with ties that say nothing.
pub fn framed(random: &mut Random) -> Job {
    let (shape, ..) = random.pick(&SHAPES);
    let steps = random.pick(&[Steps::Small, Steps::Large]);
    let counts = random.pick(&[8, 12, 32, 64, 100, 256]);
    let mut job = Frame { shape, steps, counts }.made(random);
    if random.chance(30) {
        weigh(random, &mut job.counts, &job.equations);
    }
    if !job.equations.is_empty() && random.chance(30) {
        for _ in 0..random.pick(&[1, 4, 40]) {
            let at = random.index(job.equations.len());
            silence(random, &mut job.equations[at]);
        }
    }
    if random.chance(20) {
        shift(random, &mut job);
    }
    job
}

/// Let a tie say nothing: 0 = 0, with both coefficients 0 or with those of one count that make up for each other.
fn silence(random: &mut Random, tie: &mut Equation) {
    let (right, a) = random.pick(&[(tie.right, 0), (tie.left, tie.a)]);
    *tie = Equation { left: tie.left, right, a, b: -a, c: 0 };
}

/// Another right-hand side for some equation.
fn shift(random: &mut Random, job: &mut Job) {
    if !job.equations.is_empty() {
        let at = random.index(job.equations.len());
        let equation = &mut job.equations[at];
        let steps = random.sign() * random.between(1, 20);
        let moved = random.pick(&[1, -1, 2, 60, steps * i64::from(equation.a), steps * i64::from(equation.b)]);
        equation.c = (equation.c + moved).clamp(-MOST_SIDE, MOST_SIDE);
    }
}

/// In some jobs: no weights at all, or those of some tie, so that all fit-outs of its group are worth the same.
fn weigh(random: &mut Random, counts: &mut [Count], equations: &[Equation]) {
    let style = random.index(4);
    if style < 2 {
        counts.iter_mut().for_each(|count| count.weight = 0);
    }
    if style == 1 && !equations.is_empty() {
        let tie = equations[random.index(equations.len())];
        counts[usize::from(tie.left)].weight = tie.a;
        counts[usize::from(tie.right)].weight = tie.b;
    }
}
