//! The plan of a job, by the plain method: for each group first all whole-number solutions of its ties, without any bounds
//! and in numbers of any size; then the part of them that lies within the bounds; then the best of that part.

use crate::amendments::amended;
use crate::big::Big;
use crate::job::{Equation, Job, Refusal};

#[derive(Clone, Debug, PartialEq, Eq)]
pub enum Outcome {
    Planned(Sheet),
    /// the lowest count of the first group that has no fit-out
    NoFit(usize),
    Refused(Refusal),
}

#[derive(Clone, Debug, Default, PartialEq, Eq)]
pub struct Sheet {
    pub worth: i64,
    pub counts: Vec<CountRow>,
    pub groups: Vec<GroupRow>,
}

#[derive(Clone, Debug, Default, PartialEq, Eq)]
pub struct CountRow {
    pub number: i64,
    pub base: i64,
    pub step: i64,
    pub group: usize,
}

#[derive(Clone, Debug, PartialEq, Eq)]
pub struct GroupRow {
    pub fits: i64,
    pub at: i64,
    pub gain: i64,
}

/// What is to be printed for these bytes of a job and of its amendments. The answer area is always long enough here, so there is no
/// reason 8.
pub fn plan(bytes: &[u8], amendments: &[u8]) -> Outcome {
    match amended(bytes, amendments) {
        Ok(job) => plan_job(&job),
        Err(refusal) => Outcome::Refused(refusal),
    }
}

pub fn plan_job(job: &Job) -> Outcome {
    let mut sheet = Sheet { counts: vec![CountRow::default(); job.counts.len()], ..Sheet::default() };
    for group in groups(job) {
        match family(job, &group) {
            Some(family) => enter(&mut sheet, job, &family),
            None => return Outcome::NoFit(group.lowest),
        }
    }
    sheet.worth = sheet.counts.iter().zip(&job.counts).map(|(row, count)| row.number * count.weight).sum();
    Outcome::Planned(sheet)
}

/// Enter the rows of the next group and of its counts.
fn enter(sheet: &mut Sheet, job: &Job, family: &Family) {
    let gain = family.members.iter().map(|m| job.counts[m.count].weight * m.step).sum();
    let at = family.best(job);
    for m in &family.members {
        let group = sheet.groups.len();
        sheet.counts[m.count] = CountRow { number: m.base + m.step * at, base: m.base, step: m.step, group };
    }
    sheet.groups.push(GroupRow { fits: family.fits, at, gain });
}

/// A group: its lowest count, a tree of ties from there to every other count, and the ties that are left, each of which
/// closes a ring or joins nothing.
struct Group<'a> {
    lowest: usize,
    tree: Vec<Branch<'a>>,
    rest: Vec<&'a Equation>,
}

/// A tie from a count that was reached before to one that was not.
struct Branch<'a> {
    from: usize,
    to: usize,
    tie: &'a Equation,
}

/// The groups in the order of their lowest counts.
fn groups(job: &Job) -> Vec<Group<'_>> {
    let mut ties_at = vec![Vec::new(); job.counts.len()];
    for (row, tie) in job.equations.iter().enumerate() {
        if tie.joins() {
            ties_at[tie.left].push(row);
            ties_at[tie.right].push(row);
        } else {
            ties_at[tie.home()].push(row);
        }
    }
    let mut reached = vec![false; job.counts.len()];
    let mut groups = Vec::new();
    for lowest in 0..job.counts.len() {
        if !reached[lowest] {
            groups.push(group_of(lowest, job, &ties_at, &mut reached));
        }
    }
    groups
}

/// The group of a count, by breadth-first search.
fn group_of<'a>(lowest: usize, job: &'a Job, ties_at: &[Vec<usize>], reached: &mut [bool]) -> Group<'a> {
    let mut group = Group { lowest, tree: Vec::new(), rest: Vec::new() };
    let mut used = vec![false; job.equations.len()];
    let mut queue = vec![lowest];
    reached[lowest] = true;
    let mut next = 0;
    while next < queue.len() {
        let from = queue[next];
        next += 1;
        for &row in &ties_at[from] {
            if used[row] {
                continue;
            }
            used[row] = true;
            let tie = &job.equations[row];
            let to = tie.left + tie.right - from;
            if reached[to] || !tie.joins() {
                group.rest.push(tie);
            } else {
                reached[to] = true;
                queue.push(to);
                group.tree.push(Branch { from, to, tie });
            }
        }
    }
    group
}

/// The fit-outs of a group: base + step·k for k = 0 to fits - 1, at each of its counts.
struct Family {
    members: Vec<Member>,
    fits: i64,
}

struct Member {
    count: usize,
    base: i64,
    step: i64,
}

impl Family {
    /// The k of the best fit-out. Each step changes the worth by the same amount, so it is the first or the last. Among fit-outs of
    /// equal worth "the one with the higher number at count 0 comes first, then at count 1, and so on": of two lists that begin with
    /// the worth, and go on with the numbers in the order of the counts, the greater.
    fn best(&self, job: &Job) -> i64 {
        let mut members: Vec<&Member> = self.members.iter().collect();
        members.sort_by_key(|m| m.count);
        let rank = |k: i64| {
            let numbers: Vec<i64> = members.iter().map(|m| m.base + m.step * k).collect();
            let worth: i64 = members.iter().zip(&numbers).map(|(m, x)| job.counts[m.count].weight * x).sum();
            (worth, numbers)
        };
        let last = self.fits - 1;
        if rank(last) > rank(0) {
            last
        } else {
            0
        }
    }
}

fn family(job: &Job, group: &Group) -> Option<Family> {
    let points = tree_solutions(group)?;
    let mut range = Range::of_bounds(job, &points)?;
    for tie in &group.rest {
        range = range.held_to(tie, &points)?;
    }
    let fits = (&range.last - &range.first).to_i64() + 1;
    let member = |p: &Point| Member {
        count: p.count,
        base: p.at(&range.first).to_i64(),
        step: if fits > 1 { p.step.to_i64() } else { 0 },
    };
    Some(Family { members: points.iter().map(member).collect(), fits })
}

/// The number of a count in the t-th solution, start + step·t, where t is any whole number.
struct Point {
    count: usize,
    start: Big,
    step: Big,
}

impl Point {
    fn at(&self, t: &Big) -> Big {
        &self.start + &(&self.step * t)
    }
}

/// All whole-number solutions of the tree's ties, none twice. The lowest count stands first, and its step is above 0.
fn tree_solutions(group: &Group) -> Option<Vec<Point>> {
    let mut points = vec![Point { count: group.lowest, start: Big::from(0), step: Big::from(1) }];
    for branch in &group.tree {
        extend(&mut points, branch)?;
    }
    Some(points)
}

/// Go over a·p + b·q = c to a new count q: only those t remain for which b divides c - a·p, and they are counted anew.
fn extend(points: &mut Vec<Point>, branch: &Branch) -> Option<()> {
    let tie = branch.tie;
    let (a, b) = if tie.left == branch.from { (tie.a, tie.b) } else { (tie.b, tie.a) };
    let (a, c) = (Big::from(a), Big::from(tie.c));
    let from = find(points, branch.from);
    let (u, v) = (&a * &points[from].step, &c - &(&a * &points[from].start));
    let (first, period) = congruence(u.modulo(b.abs()), v.modulo(b.abs()), b.abs())?;
    for point in points.iter_mut() {
        point.start = point.at(&Big::from(first));
        point.step = &point.step * &Big::from(period);
    }
    let b = Big::from(b);
    let start = (&c - &(&a * &points[from].start)).div_exact(&b).expect("b divides c - a·p for these t");
    let step = (&-&a * &points[from].step).div_exact(&b).expect("b divides a times the new step");
    points.push(Point { count: branch.to, start, step });
    Some(())
}

fn find(points: &[Point], count: usize) -> usize {
    points.iter().position(|p| p.count == count).expect("both counts of the tie have been reached")
}

/// The t with u·t = v modulo d are first + period·s for every whole number s, or there are none.
fn congruence(u: i64, v: i64, d: i64) -> Option<(i64, i64)> {
    let (factor, inverse) = bezout(u, d);
    let period = d / factor;
    // all of these are at most 1,000,000 in size
    (v % factor == 0).then(|| ((v / factor * inverse).rem_euclid(period), period))
}

/// The greatest common divisor of x and d, and a number that times x gives it modulo d.
fn bezout(x: i64, d: i64) -> (i64, i64) {
    let (mut r, mut s) = ((d, x), (0, 1));
    while r.1 != 0 {
        let quotient = r.0 / r.1;
        r = (r.1, r.0 - quotient * r.1);
        s = (s.1, s.0 - quotient * s.1);
    }
    (r.0, s.0)
}

/// The t from first to last; there is at least one.
struct Range {
    first: Big,
    last: Big,
}

impl Range {
    fn new(first: Big, last: Big) -> Option<Range> {
        (first <= last).then_some(Range { first, last })
    }

    fn meet(self, other: Range) -> Option<Range> {
        Range::new(self.first.max(other.first), self.last.min(other.last))
    }

    /// The t at which every count lies within its bounds.
    fn of_bounds(job: &Job, points: &[Point]) -> Option<Range> {
        let mut ranges = points.iter().map(|p| Range::of_count(job, p));
        let first = ranges.next().expect("a group has a count")?;
        ranges.try_fold(first, |sofar, range| sofar.meet(range?))
    }

    /// Where the low is above the high, first is above last.
    fn of_count(job: &Job, point: &Point) -> Option<Range> {
        let count = &job.counts[point.count];
        let (low, high) = (&Big::from(count.low) - &point.start, &Big::from(count.high) - &point.start);
        let rises = point.step > Big::from(0);
        let (from, to) = if rises { (low, high) } else { (high, low) };
        Range::new(from.div_ceil(&point.step), to.div_floor(&point.step).0)
    }

    /// The t of the range at which the tie holds: (a·step + b·step')·t = c - a·start - b·start'. A count with coefficient 0 may be one
    /// of another group, and is left out.
    fn held_to(self, tie: &Equation, points: &[Point]) -> Option<Range> {
        let (mut factor, mut side) = (Big::from(0), Big::from(tie.c));
        for (coefficient, count) in [(tie.a, tie.left), (tie.b, tie.right)] {
            if coefficient != 0 {
                let (x, point) = (Big::from(coefficient), &points[find(points, count)]);
                factor = &factor + &(&x * &point.step);
                side = &side - &(&x * &point.start);
            }
        }
        if factor.is_zero() {
            return side.is_zero().then_some(self);
        }
        let t = side.div_exact(&factor)?;
        self.meet(Range { first: t.clone(), last: t })
    }
}
