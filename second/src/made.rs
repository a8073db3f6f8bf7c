//! Lawful pseudo-random jobs. Most are made around a hidden fit-out, and many around a hidden family (a direction in which
//! every tie of a group keeps holding), so that large jobs too have fit-outs, and often many.

use crate::job::{Count, Equation, Job, MOST_COEFFICIENT, MOST_COUNTS, MOST_EQUATIONS, MOST_NUMBER, MOST_SIDE, MOST_WEIGHT};
use crate::random::Random;

#[derive(Clone, Copy)]
pub enum Size {
    Small,
    Middle,
    Large,
}

impl Size {
    fn counts(self, random: &mut Random) -> usize {
        match self {
            Size::Small => random.index(6),
            Size::Middle => 2 + random.index(39),
            Size::Large => random.pick(&[100, 150, 200, 250, MOST_COUNTS]) - random.index(6),
        }
    }

    /// How many ties are to join nothing: half of the jobs have some.
    fn fixes(self, random: &mut Random) -> usize {
        match self {
            Size::Small => random.pick(&[0, 0, 0, 1, 2, 4]),
            Size::Middle => random.pick(&[0, 0, 0, 1, 4, 20]),
            Size::Large => random.pick(&[0, 0, 0, 1, 10, 100]),
        }
    }

    /// How many ties are to close a ring.
    fn rings(self, random: &mut Random) -> usize {
        match self {
            Size::Small => random.pick(&[0, 0, 1, 2, 4]),
            Size::Middle => random.pick(&[0, 0, 1, 3, 20, 80]),
            Size::Large => random.pick(&[0, 1, 10, 100, MOST_EQUATIONS]),
        }
    }
}

/// A job around a hidden fit-out.
pub fn hidden(random: &mut Random, size: Size) -> Job {
    hidden_with_fit(random, size).0
}

/// The same with the hidden fit-out. One in four has a flaw or more, and so mostly no fit; then none is given.
pub fn hidden_with_fit(random: &mut Random, size: Size) -> (Job, Option<Vec<i64>>) {
    let n = size.counts(random);
    let mut draft = Draft::new(n);
    for members in parts(random, n) {
        draft.add_group(random, members);
    }
    for _ in 0..size.fixes(random) {
        draft.add_fix(random);
    }
    for _ in 0..size.rings(random) {
        draft.add_ring(random);
    }
    let flaws = if random.chance(25) { random.pick(&[1, 1, 2, 3]) } else { 0 };
    for _ in 0..flaws {
        draft.add_flaw(random);
    }
    draft.set_weights(random);
    random.shuffle(&mut draft.job.equations);
    (draft.job, (flaws == 0).then_some(draft.point))
}

/// A job of up to n counts in which nothing is arranged.
pub fn wild(random: &mut Random, n: usize) -> Job {
    let n = random.index(n + 1);
    let bound = random.pick(&[2, 6, 6, 1_000, MOST_NUMBER]);
    let most = random.pick(&[1, 3, 5, 1_000, MOST_COEFFICIENT]);
    let loose = random.pick(&[0, 0, 15, 50]);
    let ties = if n == 0 || n == 1 && loose == 0 { 0 } else { random.index(n + 2) };
    Job {
        counts: (0..n).map(|_| wild_count(random, bound)).collect(),
        equations: (0..ties).map(|_| wild_tie(random, n, most, bound, loose)).collect(),
    }
}

fn wild_count(random: &mut Random, bound: i64) -> Count {
    let (x, y) = (random.between(-bound, bound), random.between(-bound, bound));
    let turned = random.chance(5);
    let (low, high) = if turned { (x.max(y), x.min(y)) } else { (x.min(y), x.max(y)) };
    Count { low, high, weight: random.between(-5, 5) }
}

/// By a chance of `loose` in a hundred it joins nothing.
fn wild_tie(random: &mut Random, n: usize, most: i64, bound: i64, loose: i64) -> Equation {
    let (left, right) = if n == 1 { (0, 0) } else { two_of(random, n) };
    let (a, b) = (random.sign() * random.sized(most), random.sign() * random.sized(most));
    let mut tie = Equation { left, right, a, b, c: 0 };
    if random.chance(loose) {
        loosen(random, &mut tie);
    }
    let (x, y) = (random.between(-bound, bound), random.between(-bound, bound));
    let y = if tie.left == tie.right { x } else { y };
    tie.c = tie.a * x + tie.b * y;
    if !tie.joins() && random.chance(15) {
        tie.c = (tie.c + random.sign()).clamp(-MOST_SIDE, MOST_SIDE);
    }
    tie
}

/// Let it join nothing: by a coefficient 0, by two, or by the same count on both sides.
pub fn loosen(random: &mut Random, tie: &mut Equation) {
    match random.index(6) {
        0 => tie.a = 0,
        1 => tie.b = 0,
        2 => tie.right = tie.left,
        3 | 4 => (tie.a, tie.b) = (0, 0),
        _ => (tie.right, tie.b) = (tie.left, -tie.a),
    }
}

/// Two different numbers below n.
fn two_of(random: &mut Random, n: usize) -> (usize, usize) {
    let left = random.index(n);
    let right = (left + 1 + random.index(n - 1)) % n;
    (left, right)
}

/// The counts in parts that are to become groups: all together, each alone, or a number of parts between.
fn parts(random: &mut Random, n: usize) -> Vec<Vec<usize>> {
    let mut counts: Vec<usize> = (0..n).collect();
    if random.chance(70) {
        random.shuffle(&mut counts);
    }
    let mut parts = Vec::new();
    let longest = random.pick(&[1, 2, 4, 10, 40, n, n, n, n, n]);
    while !counts.is_empty() {
        let length = if longest == n { n } else { 1 + random.index(longest.min(counts.len())) };
        parts.push(counts.drain(..length).collect());
    }
    parts
}

/// A group in the making.
struct Part {
    members: Vec<usize>,
    /// its ties in the draft's list
    ties: Vec<usize>,
    /// whether the direction is that of a family; otherwise only the point is known
    aligned: bool,
    /// whether a ring may leave one candidate only
    crossed: bool,
    /// whether a tie may fix one of its counts; otherwise those that join nothing say nothing either
    fixed: bool,
}

/// A job in the making, with a hidden fit-out and a direction in which it can move.
struct Draft {
    job: Job,
    point: Vec<i64>,
    direction: Vec<i64>,
    parts: Vec<Part>,
}

impl Draft {
    fn new(n: usize) -> Draft {
        let counts = vec![Count { low: 0, high: 0, weight: 0 }; n];
        Draft { job: Job { counts, equations: Vec::new() }, point: vec![0; n], direction: vec![1; n], parts: Vec::new() }
    }

    /// Tie the members as a chain, a star or any tree, and set their bounds.
    fn add_group(&mut self, random: &mut Random, members: Vec<usize>) {
        let aligned = random.chance(if members.len() > 6 { 90 } else { 60 });
        let most = random.pick(&[1, 5, 5, 100, 10_000, MOST_COEFFICIENT]);
        let reach = random.pick(&[20, 1_000, MOST_NUMBER]);
        let steepest = if aligned { random.pick(&[1, 12, 1_000, 1_000_000, 2 * MOST_NUMBER]) } else { 1 };
        let shape = random.index(3);
        for &i in &members {
            self.point[i] = random.sign() * (random.sized(reach) - 1);
            self.direction[i] = smooth(random, steepest);
        }
        let (crossed, fixed) = (random.chance(25), random.chance(30));
        self.parts.push(Part { aligned, crossed, fixed, ties: Vec::new(), members: members.clone() });
        for at in 1..members.len() {
            let from = members[[at - 1, 0, random.index(at)][shape]];
            let (a, b) = if aligned {
                self.lead_on(random, from, members[at], most, steepest)
            } else {
                (random.sign() * random.sized(most), random.sign() * random.sized(most))
            };
            let last = self.parts.len() - 1;
            self.add_tie(random, last, from, members[at], (a, b), 0);
        }
        self.set_bounds(random, &members);
    }

    /// Choose the direction of a new count by that of one before it, and the coefficients that go with both.
    fn lead_on(&mut self, random: &mut Random, from: usize, to: usize, most: i64, steepest: i64) -> (i64, i64) {
        let before = self.direction[from];
        let divisor = gcd(before, smooth(random, most));
        let highest = (steepest / (before / divisor).abs()).clamp(1, most);
        let factor = random.sign() * random.sized(highest);
        self.direction[to] = before / divisor * factor;
        (factor, -divisor)
    }

    /// Add a·p + b·q = c, with c from the hidden fit-out and moved by some amount; sides, sign and a common factor at random.
    fn add_tie(&mut self, random: &mut Random, part: usize, p: usize, q: usize, (a, b): (i64, i64), moved: i64) {
        let common = random.sign() * random.sized(MOST_COEFFICIENT / a.abs().max(b.abs()));
        let common = if random.chance(60) { common.signum() } else { common };
        let c = (a * self.point[p] + b * self.point[q]) * common + moved;
        let (a, b) = (a * common, b * common);
        if c.abs() > MOST_SIDE || self.job.equations.len() >= MOST_EQUATIONS {
            return;
        }
        let turned = random.chance(50);
        let (left, right, a, b) = if turned { (q, p, b, a) } else { (p, q, a, b) };
        self.parts[part].ties.push(self.job.equations.len());
        self.job.equations.push(Equation { left, right, a, b, c });
    }

    /// A tie that joins nothing, through the hidden fit-out.
    fn add_fix(&mut self, random: &mut Random) {
        if !self.parts.is_empty() {
            let part = &self.parts[random.index(self.parts.len())];
            let p = random.pick(&part.members);
            let coefficient = if part.fixed && random.chance(60) { sum_of_two(random) } else { 0 };
            self.add_lone(random, p, coefficient, 0);
        }
    }

    /// Add x·p = c, with c from the hidden fit-out and moved by some amount; p is named twice, or with any count that gets the
    /// coefficient 0.
    fn add_lone(&mut self, random: &mut Random, p: usize, x: i64, moved: i64) {
        let c = x * self.point[p] + moved;
        if c.abs() > MOST_SIDE || self.job.equations.len() >= MOST_EQUATIONS {
            return;
        }
        let q = random.index(self.point.len());
        let twice = q == p || x.abs() > MOST_COEFFICIENT || random.chance(40);
        let (left, right, (a, b)) = if twice {
            (p, p, split(random, x))
        } else if x != 0 && random.chance(50) {
            (q, p, (0, x))
        } else {
            (p, q, (x, 0))
        };
        self.job.equations.push(Equation { left, right, a, b, c });
    }

    /// Bounds that keep the hidden fit-out: some steps to either side, the full range, or that number alone.
    fn set_bounds(&mut self, random: &mut Random, members: &[usize]) {
        let steps = random.pick(&[0, 1, 5, 100, 1_000_000]);
        let style = random.pick(&[0, 0, 0, 1, 2]);
        for &i in members {
            let step = self.direction[i].abs();
            let mut away = || random.between((steps + 1) / 2, steps) * step + random.between(0, step - 1);
            let (down, up) = (away(), away());
            let full = style == 1 || style == 2 && random.chance(50);
            let count = &mut self.job.counts[i];
            count.low = if full { -MOST_NUMBER } else { (self.point[i] - down).max(-MOST_NUMBER) };
            count.high = if full { MOST_NUMBER } else { (self.point[i] + up).min(MOST_NUMBER) };
        }
    }

    /// A part that has a tie, or None.
    fn tied_part(&self, random: &mut Random) -> Option<usize> {
        let tied: Vec<usize> = (0..self.parts.len()).filter(|&p| !self.parts[p].ties.is_empty()).collect();
        (!tied.is_empty()).then(|| random.pick(&tied))
    }

    fn two_members(&self, random: &mut Random, part: usize) -> (usize, usize) {
        let members = &self.parts[part].members;
        let (p, q) = two_of(random, members.len());
        (members[p], members[q])
    }

    /// One of the part's ties, taken apart.
    fn some_tie(&self, random: &mut Random, part: usize) -> (usize, usize, (i64, i64)) {
        let tie = &self.job.equations[random.pick(&self.parts[part].ties)];
        (tie.left, tie.right, (tie.a, tie.b))
    }

    /// Close a ring through the hidden fit-out: redundant, or with one candidate.
    fn add_ring(&mut self, random: &mut Random) {
        let Some(part) = self.tied_part(random) else { return };
        let (p, q) = self.two_members(random, part);
        if self.parts[part].crossed && random.chance(40) {
            let most = random.pick(&[5, MOST_COEFFICIENT]);
            let sides = (random.sign() * random.sized(most), random.sign() * random.sized(most));
            return self.add_tie(random, part, p, q, sides, 0);
        }
        let common = gcd(self.direction[p], self.direction[q]);
        let (a, b) = (self.direction[q] / common, -self.direction[p] / common);
        if self.parts[part].aligned && a.abs().max(b.abs()) <= MOST_COEFFICIENT {
            return self.add_tie(random, part, p, q, (a, b), 0);
        }
        let (p, q, sides) = self.some_tie(random, part);
        self.add_tie(random, part, p, q, sides, 0);
    }

    /// Spoil a group, as by one of document 01's wrong plans.
    fn add_flaw(&mut self, random: &mut Random) {
        if random.chance(35) {
            return self.add_false_fix(random);
        }
        let Some(part) = self.tied_part(random) else { return self.empty_bounds(random) };
        let (p, q) = self.two_members(random, part);
        let sides = (random.sign() * random.sized(MOST_COEFFICIENT), random.sign() * random.sized(9));
        match random.index(6) {
            0 => self.empty_bounds(random),
            1 => {
                // contradictory: a tie that is there, with another right-hand side
                let (p, q, sides) = self.some_tie(random, part);
                let moved = random.sign() * random.sized(1_000);
                self.add_tie(random, part, p, q, sides, moved)
            }
            // a candidate that is, mostly, half a card
            2 => self.add_tie(random, part, p, q, sides, 1),
            3 => self.far_candidate(random, part, p, q),
            4 => {
                // an even left side and an odd right-hand side
                let sides = (2 * random.between(1, 9), -2 * random.sized(100_000));
                let odd = 2 * random.between(-20, 20) + 1;
                self.add_tie(random, part, p, q, sides, odd)
            }
            _ => self.stepped_over(random, part),
        }
    }

    /// A tie that joins nothing, and is not through the hidden fit-out: 0 = c, mostly half a card, or a whole number some way off.
    fn add_false_fix(&mut self, random: &mut Random) {
        if self.point.is_empty() {
            return;
        }
        let p = random.index(self.point.len());
        let (x, away) = (sum_of_two(random), random.sign() * random.sized(1_000));
        let any = random.sign() * random.sized(MOST_SIDE);
        let (x, moved) = random.pick(&[(0, any), (0, any), (x, away.signum()), (x, x * away)]);
        self.add_lone(random, p, x, moved);
    }

    fn empty_bounds(&mut self, random: &mut Random) {
        if self.job.counts.is_empty() {
            return;
        }
        let at = random.index(self.job.counts.len());
        let count = &mut self.job.counts[at];
        count.low = (count.high + random.sized(2 * MOST_NUMBER)).min(MOST_NUMBER);
    }

    /// A whole candidate some steps away, most often past the bounds.
    fn far_candidate(&mut self, random: &mut Random, part: usize, p: usize, q: usize) {
        let steps = random.sign() * random.sized(1_000);
        let (a, b) = (random.sized(9), random.sign() * random.sized(9));
        let moved = (a * self.direction[p] + b * self.direction[q]) * steps;
        self.add_tie(random, part, p, q, (a, b), moved);
    }

    /// Bounds between two neighbours of the family.
    fn stepped_over(&mut self, random: &mut Random, part: usize) {
        let i = random.pick(&self.parts[part].members);
        let step = self.direction[i].abs();
        if step > 1 && self.point[i] + step <= MOST_NUMBER {
            self.job.counts[i].low = self.point[i] + 1;
            self.job.counts[i].high = self.point[i] + step - 1;
        }
    }

    fn set_weights(&mut self, random: &mut Random) {
        let style = random.index(5);
        for count in &mut self.job.counts {
            count.weight = match style {
                0 => 0,
                1 => random.between(-5, 5),
                2 => random.between(-MOST_WEIGHT, MOST_WEIGHT),
                3 => random.sign() * MOST_WEIGHT,
                _ => 0,
            };
        }
        if style == 4 {
            self.balance(random);
        }
    }

    /// Weights like the sides of a tie: all fit-outs of its group are equally good.
    fn balance(&mut self, random: &mut Random) {
        for part in 0..self.parts.len() {
            if !self.parts[part].ties.is_empty() {
                let (p, q, (a, b)) = self.some_tie(random, part);
                self.job.counts[p].weight = a;
                self.job.counts[q].weight = b;
            }
        }
    }
}

/// What two coefficients of one count can come to, and not 0.
fn sum_of_two(random: &mut Random) -> i64 {
    let any = random.sized(2 * MOST_COEFFICIENT);
    random.sign() * random.pick(&[1, 3, any, any, any, 2 * MOST_COEFFICIENT])
}

/// Two coefficients of that sum, at the ends of their range or anywhere in it; one may be 0.
fn split(random: &mut Random, sum: i64) -> (i64, i64) {
    let (least, most) = ((sum - MOST_COEFFICIENT).max(-MOST_COEFFICIENT), (sum + MOST_COEFFICIENT).min(MOST_COEFFICIENT));
    let (near, any) = (random.between(-5, 5).clamp(least, most), random.between(least, most));
    let a = random.pick(&[least, most, near, any, 0.clamp(least, most)]);
    (a, sum - a)
}

/// A number from 1 to most; many have small factors only.
fn smooth(random: &mut Random, most: i64) -> i64 {
    if random.chance(20) {
        return random.sized(most);
    }
    let mut x = 1;
    loop {
        let next = x * random.pick(&[2, 2, 3, 3, 5, 7, 11, 13]);
        if next > most || random.chance(5) {
            return x;
        }
        x = next;
    }
}

pub fn gcd(x: i64, y: i64) -> i64 {
    if y == 0 {
        x.abs()
    } else {
        gcd(y, x % y)
    }
}

#[cfg(test)]
mod tests {
    use super::*;
    use crate::job;

    #[test]
    fn lawful() {
        for number in 0..3_000 {
            let mut random = Random::new(7, number);
            let size = random.pick(&[Size::Small, Size::Middle, Size::Large]);
            let job = if random.chance(70) { hidden(&mut random, size) } else { wild(&mut random, 40) };
            assert!(job::read(&job::write(&job)).is_ok(), "job {number} is refused");
        }
    }
}
