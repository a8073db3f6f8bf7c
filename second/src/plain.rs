//! The workings (document 01, "Workings"), read plainly and in 128 bits. None where they refuse.

use crate::archive::Run;
use crate::job::{MOST_COEFFICIENT, MOST_NUMBER, MOST_SIDE};

pub const MOST_DIVIDED: i64 = 4_000_000_000_000_000_000;

pub fn divide(n: i64, d: i64) -> Option<i64> {
    let lawful = d != 0 && within(n, MOST_DIVIDED) && within(d, MOST_DIVIDED);
    lawful.then(|| floor(n.into(), d.into()).try_into().expect("no quotient is longer"))
}

/// The run of the numbers in both.
pub fn meet(a: Run, b: Run) -> Option<Run> {
    if !in_form(&a) || !in_form(&b) {
        return None;
    }
    // the run with the longer steps is gone through: after as many of its numbers as b's step, they fall among b's as before
    let (a, b) = if a.step < b.step { (b, a) } else { (a, b) };
    let number = |k| first(&a) + step(&a) * k;
    let (from, to) = (-floor(first(&a) - first(&b), step(&a)), floor(last(&b) - first(&a), step(&a)));
    let in_b = |k| (number(k) - first(&b)) % step(&b) == 0;
    Some(Places::new(&a, (from, to), step(&b), in_b).run(number))
}

/// The run of all p of the range for which a·p + b·q = c with a q of the run.
pub fn carry(a: i64, b: i64, c: i64, q: Run) -> Option<Run> {
    let coefficient = |x| x != 0 && within(x, MOST_COEFFICIENT);
    if !coefficient(a) || !coefficient(b) || !within(c, MOST_SIDE) || !in_form(&q) {
        return None;
    }
    let (a, b, c) = (i128::from(a), i128::from(b), i128::from(c));
    let a_times_p = |k| c - b * (first(&q) + step(&q) * k);
    // p is within the range where the size of a·p, which falls by `fall` from one k to the next, is at most `most`
    let (start, fall, most) = (a_times_p(0), b * step(&q), a.abs() * i128::from(MOST_NUMBER));
    let (start, fall) = if fall < 0 { (-start, -fall) } else { (start, fall) };
    let (from, to) = (-floor(most - start, fall), floor(start + most, fall));
    // after as many k as the size of a, it divides as before
    Some(Places::new(&q, (from, to), a.abs(), |k| a_times_p(k) % a == 0).run(|k| a_times_p(k) / a))
}

/// Places k in a run: the first, the distance from one to the next, and how many.
struct Places {
    first: i128,
    step: i128,
    many: i128,
}

impl Places {
    /// Of these places of the run, the ones for which a test holds whose answers repeat after `period`.
    fn new(run: &Run, (from, to): (i128, i128), period: i128, test: impl Fn(i128) -> bool) -> Places {
        let (from, to) = (from.max(0), to.min(i128::from(run.many) - 1));
        let mut found = (from..=to.min(from + 2 * period)).filter(|&k| test(k));
        match (found.next(), found.next()) {
            (None, _) => Places { first: 0, step: 0, many: 0 },
            (Some(first), None) => Places { first, step: 0, many: 1 },
            (Some(first), Some(next)) => Places { first, step: next - first, many: (to - first) / (next - first) + 1 },
        }
    }

    /// The numbers at these places, which rise or fall evenly, as a run.
    fn run(&self, number: impl Fn(i128) -> i128) -> Run {
        if self.many == 0 {
            return Run::default();
        }
        let (start, end) = (number(self.first), number(self.first + self.step * (self.many - 1)));
        let step = (number(self.first + self.step) - start).abs();
        let i64_of = |x| i64::try_from(x).expect("numbers of runs are short");
        Run { first: i64_of(start.min(end)), step: i64_of(step), many: self.many as u32 }
    }
}

/// Whether the run is in its one form.
fn in_form(run: &Run) -> bool {
    let in_range = |x: i128| x.abs() <= MOST_NUMBER.into();
    match run.many {
        0 => run.first == 0 && run.step == 0,
        1 => in_range(first(run)) && run.step == 0,
        _ => in_range(first(run)) && run.step >= 1 && in_range(last(run)),
    }
}

fn first(run: &Run) -> i128 {
    run.first.into()
}

/// 1 where there is none to take.
fn step(run: &Run) -> i128 {
    i128::from(run.step).max(1)
}

fn last(run: &Run) -> i128 {
    first(run) + step(run) * (i128::from(run.many) - 1)
}

fn within(x: i64, most: i64) -> bool {
    x.unsigned_abs() <= most.unsigned_abs()
}

/// The greatest whole number that is not above n / d.
fn floor(n: i128, d: i128) -> i128 {
    let (n, d) = if d < 0 { (-n, -d) } else { (n, d) };
    n.div_euclid(d) // leaves a rest of at least 0
}

#[cfg(test)]
mod tests {
    use super::*;

    const FULL: Run = Run { first: -MOST_NUMBER, step: 1, many: 2_000_000_001 };
    const RUN_PAST: Run = Run { first: 0, step: 1_000_000_000, many: 3 };

    /// Every run in its one form of a few numbers between -6 and 6.
    fn small_runs() -> Vec<Run> {
        let all =
            (-6..=6).flat_map(|first| (0..=5).flat_map(move |step| (0..=6).map(move |many| Run { first, step, many })));
        all.filter(|run| in_form(run) && (run.many == 0 || last(run) <= 6)).collect()
    }

    fn numbers(run: &Run) -> Vec<i64> {
        (0..run.many).map(|k| run.first + run.step * i64::from(k)).collect()
    }

    /// The run of these, which rise.
    fn run_of(list: &[i64]) -> Run {
        let step = if let [first, second, ..] = list { second - first } else { 0 };
        let run = Run { first: *list.first().unwrap_or(&0), step, many: list.len() as u32 };
        assert_eq!(numbers(&run), list, "not a run");
        run
    }

    #[test]
    fn divisions() {
        assert_eq!([divide(-7, 2), divide(7, -2), divide(-8, 2)], [Some(-4); 3]);
        assert_eq!([divide(7, 2), divide(-7, -2), divide(8, 2)], [Some(3), Some(3), Some(4)]);
        assert_eq!([divide(MOST_DIVIDED, -1), divide(-MOST_DIVIDED, 1)], [Some(-MOST_DIVIDED); 2]);
        assert_eq!([divide(1, 0), divide(MOST_DIVIDED + 1, 1), divide(i64::MIN, 1), divide(1, i64::MIN)], [None; 4]);
    }

    #[test]
    fn meetings() {
        let runs = small_runs();
        assert!(runs.len() > 100);
        for a in &runs {
            for b in &runs {
                let both: Vec<i64> = numbers(a).into_iter().filter(|x| numbers(b).contains(x)).collect();
                assert_eq!(meet(*a, *b), Some(run_of(&both)), "{a:?} and {b:?}");
            }
            assert_eq!([meet(*a, FULL), meet(FULL, *a)], [Some(*a); 2]);
            assert_eq!([meet(*a, RUN_PAST), meet(RUN_PAST, *a)], [None; 2]);
        }
        assert_eq!(meet(FULL, FULL), Some(FULL));
    }

    #[test]
    fn carryings() {
        for q in small_runs() {
            for (a, b, c) in (-3..=3).flat_map(|a| (-3..=3).flat_map(move |b| (-7..=7).map(move |c| (a, b, c)))) {
                let has_partner = |p: &i64| numbers(&q).iter().any(|q| a * p + b * q == c);
                let wanted = (a != 0 && b != 0).then(|| run_of(&(-30..=30).filter(has_partner).collect::<Vec<i64>>()));
                assert_eq!(carry(a, b, c, q), wanted, "{a}·p + {b}·q = {c}, q in {q:?}");
            }
        }
        let wanted = Run { first: -999_998_999, step: 999_999, many: 2_000 };
        assert_eq!(carry(1_000_000, -999_999, 1, FULL), Some(wanted));
        assert_eq!(carry(1, -1, 1, FULL), Some(Run { many: 2_000_000_000, first: 1 - MOST_NUMBER, ..FULL }));
        assert_eq!([carry(1_000_001, 1, 0, FULL), carry(1, 1, MOST_SIDE + 1, FULL), carry(1, 1, 0, RUN_PAST)], [None; 3]);
    }
}
