//! The frames: jobs of full size, of one shape each.

use crate::amending;
use crate::amendments::Amendment;
use crate::hidden::{Hidden, Steps};
use crate::job::{Count, Equation, Job, MOST_COUNTS};
use crate::random::Random;

/// How a job hangs together. But for `Untied` there are four equations to a count; those that do not join are rings.
#[derive(Clone, Copy, Debug, PartialEq, Eq)]
pub enum Shape {
    Chain,
    Shuffled,
    Groups,
    Spread,
    Star,
    Pairs,
    Reversed,
    Narrowing,
    NoFit,
    Untied,
}

/// With a name, and what it is.
pub const SHAPES: [(Shape, &str, &str); 10] = [
    (Shape::Chain, "chain", "one chain, joined in turn, then its rings"),
    (Shape::Groups, "groups", "groups of four counts, one after the other"),
    (Shape::Shuffled, "shuffled", "one chain, joins and rings in any order"),
    (Shape::Spread, "spread", "groups of four counts that lie far apart, in any order"),
    (Shape::Star, "star", "every count joined with count 0, then rings"),
    (Shape::Pairs, "pairs", "pairs, then pairs of pairs, and so on, then rings"),
    (Shape::Reversed, "reversed", "one chain, joined from the far end, then its rings"),
    (Shape::Narrowing, "narrowing", "one chain in which every join leaves one fit less"),
    (Shape::NoFit, "nofit", "one chain whose last ring has no fit"),
    (Shape::Untied, "untied", "no equations at all"),
];

/// How many jobs there are to a frame.
pub const JOBS: u64 = 16;

const GROUP: usize = 4;
const EQUATIONS_TO_A_COUNT: usize = 4;

#[derive(Clone, Copy, Debug, PartialEq, Eq)]
pub struct Frame {
    pub shape: Shape,
    pub steps: Steps,
    pub counts: usize,
}

impl Frame {
    pub fn new(shape: Shape, steps: Steps) -> Frame {
        Frame { shape, steps, counts: MOST_COUNTS }
    }

    /// Every shape with small and with large steps; steps mean nothing where nothing is tied.
    pub fn all() -> Vec<Frame> {
        let both = SHAPES.iter().flat_map(|&(shape, ..)| [Steps::Small, Steps::Large].map(|steps| Frame::new(shape, steps)));
        both.filter(|frame| frame.shape != Shape::Untied || frame.steps == Steps::Large).collect()
    }

    /// SHAPE-STEPS, and /COUNTS where these are fewer than there can be.
    pub fn name(&self) -> String {
        let known = SHAPES.iter().find(|(shape, ..)| *shape == self.shape);
        let shape = known.expect("every shape has a name").1;
        let steps = match (self.shape, self.steps) {
            (Shape::Untied, _) => "",
            (_, Steps::Small) => "-small",
            (_, Steps::Large) => "-large",
        };
        let size = if self.counts == MOST_COUNTS { String::new() } else { format!("/{}", self.counts) };
        format!("{shape}{steps}{size}")
    }

    /// The frame of that name, with 8 counts or more, in fours.
    pub fn named(name: &str) -> Option<Frame> {
        let (name, counts) = match name.split_once('/') {
            Some((name, counts)) => (name, counts.parse().ok()?),
            None => (name, MOST_COUNTS),
        };
        let lawful = (2 * GROUP..=MOST_COUNTS).contains(&counts) && counts % GROUP == 0;
        let frame = Frame::all().into_iter().find(|frame| frame.name() == name)?;
        lawful.then_some(Frame { counts, ..frame })
    }

    /// One of its jobs, settled by the frame, the seed and its number.
    pub fn job(&self, seed: u64, number: u64) -> Job {
        self.made(&mut self.random(seed, number))
    }

    /// The same with its bounds in amendments, two to a count.
    pub fn amended(&self, seed: u64, number: u64) -> (Job, Vec<Amendment>) {
        let random = &mut self.random(seed, number);
        let job = self.made(random);
        amending::in_amendments(random, job)
    }

    fn random(&self, seed: u64, number: u64) -> Random {
        let place = (self.shape as u64 * 2 + self.steps as u64) * 1_000 + self.counts as u64;
        Random::new(seed, place * 1_000_000 + number)
    }

    pub fn made(&self, random: &mut Random) -> Job {
        let n = self.counts;
        let hidden = Hidden::new(random, n, self.steps);
        let counts = if self.shape == Shape::Narrowing { narrowing(random, &hidden) } else { hidden.counts(random) };
        if self.shape == Shape::Untied {
            return Job { counts, equations: Vec::new() };
        }
        let mut equations: Vec<Equation> = self.joins().into_iter().map(|(p, q)| hidden.tie(random, p, q)).collect();
        while equations.len() < EQUATIONS_TO_A_COUNT * n {
            let (p, q) = self.ring(random, equations.len());
            equations.push(hidden.tie(random, p, q));
        }
        self.arrange(random, &mut equations);
        Job { counts, equations }
    }

    /// The pairs that are joined, in their order.
    fn joins(&self) -> Vec<(usize, usize)> {
        let n = self.counts;
        let chain = (1..n).map(|i| (i - 1, i));
        match self.shape {
            Shape::Groups | Shape::Spread => {
                let joined = (0..n).filter(|i| i % GROUP > 0).map(|i| (i - 1, i));
                joined.map(|(p, q)| (self.placed(p), self.placed(q))).collect()
            }
            Shape::Star => (1..n).map(|i| (0, i)).collect(),
            Shape::Pairs => pairs(n),
            Shape::Reversed => chain.rev().collect(),
            Shape::Chain | Shape::Shuffled | Shape::Narrowing | Shape::NoFit => chain.collect(),
            Shape::Untied => Vec::new(),
        }
    }

    /// Two counts that are joined already. Groups get their rings by turns.
    fn ring(&self, random: &mut Random, turn: usize) -> (usize, usize) {
        if !matches!(self.shape, Shape::Groups | Shape::Spread) {
            return random.two_of(self.counts);
        }
        let start = turn % (self.counts / GROUP) * GROUP;
        let (p, q) = random.two_of(GROUP);
        (self.placed(start + p), self.placed(start + q))
    }

    /// Which count is the i-th, where the members of a group follow each other.
    fn placed(&self, i: usize) -> usize {
        match self.shape {
            Shape::Spread => i % GROUP * (self.counts / GROUP) + i / GROUP,
            _ => i,
        }
    }

    /// Put joins and rings into their order, and spoil the last where nothing is to fit.
    fn arrange(&self, random: &mut Random, equations: &mut [Equation]) {
        match self.shape {
            Shape::Groups => equations.sort_by_key(|equation| usize::from(equation.left) / GROUP),
            Shape::Shuffled | Shape::Spread => random.shuffle(equations),
            Shape::NoFit => equations[equations.len() - 1].c += 1,
            _ => (),
        }
    }
}

/// Neighbours, then neighbouring pairs, and so on.
fn pairs(n: usize) -> Vec<(usize, usize)> {
    let widths = (0..).map(|i| 1 << i).take_while(|&width| width < n);
    let joins = widths.flat_map(|width| (width..n).step_by(2 * width).map(|i| (i - 1, i)));
    joins.collect()
}

/// Count i allows one fit less than count i − 1, at one end or the other.
fn narrowing(random: &mut Random, hidden: &Hidden) -> Vec<Count> {
    let count = |i| {
        let left = 1_000 - i as i64;
        hidden.count(random, i, left / 2, (left + 1) / 2, 0)
    };
    (0..hidden.base.len()).map(count).collect()
}

#[cfg(test)]
mod tests {
    use super::*;
    use crate::amendments::{self, MOST_AMENDMENTS};
    use crate::archive::Outcome;
    use crate::job::{self, MOST_EQUATIONS};
    use crate::plain;
    use crate::sheet::Sheet;

    fn planned(job: &Job) -> (Outcome, Sheet) {
        let mut area = vec![0; 8_216];
        let outcome = plain::plan(&job::write(job), &[], &mut area).fields();
        (outcome, Sheet::read(&area))
    }

    /// Every frame is what it says: lawful and full, in so many groups, with hundreds of fits, or with none.
    #[test]
    fn as_told() {
        for frame in Frame::all() {
            for number in 0..JOBS {
                let (job, name) = (frame.job(1, number), frame.name());
                let equations = if frame.shape == Shape::Untied { 0 } else { MOST_EQUATIONS };
                assert_eq!((job.counts.len(), job.equations.len()), (MOST_COUNTS, equations), "{name} {number}");
                let (outcome, sheet) = planned(&job);
                if frame.shape == Shape::NoFit {
                    assert_eq!(outcome, Outcome { kind: 2, ..Outcome::default() }, "{name} {number}");
                    continue;
                }
                let groups = match frame.shape {
                    Shape::Groups | Shape::Spread => 64,
                    Shape::Untied => 256,
                    _ => 1,
                };
                assert_eq!((outcome.kind, sheet.groups.len()), (1, groups), "{name} {number}");
                assert!(sheet.groups.iter().all(|row| row.fits > 200), "{name} {number}: {:?}", sheet.groups);
            }
        }
    }

    /// Without the last equation the frame without a fit has hundreds.
    #[test]
    fn no_fit_by_the_last_row_alone() {
        let mut job = Frame::new(Shape::NoFit, Steps::Large).job(1, 0);
        job.equations.pop();
        assert!(planned(&job).1.groups[0].fits > 200);
    }

    /// With i counts, the fits are 1,001 − (i − 1).
    #[test]
    fn narrower_by_one() {
        let whole = Frame::new(Shape::Narrowing, Steps::Small).job(1, 0);
        for i in 20..=MOST_COUNTS {
            let named = |equation: &&Equation| usize::from(equation.left.max(equation.right)) < i;
            let equations = whole.equations.iter().filter(named).copied().collect();
            let sheet = planned(&Job { counts: whole.counts[..i].to_vec(), equations }).1;
            assert_eq!(sheet.groups[0].fits as usize, 1_002 - i);
        }
    }

    /// Amended it is planned as the frame is, and without its amendments it has no fit.
    #[test]
    fn amended() {
        for frame in Frame::all() {
            let (other, all) = frame.amended(1, 0);
            assert_eq!(all.len(), MOST_AMENDMENTS, "{}", frame.name());
            let job = amendments::amended(other.clone(), &amendments::write(&all));
            assert_eq!(job, Ok(frame.job(1, 0)), "{}", frame.name());
            assert_eq!(planned(&other).0.kind, 2, "{}", frame.name());
        }
    }

    #[test]
    fn joins() {
        assert_eq!(pairs(8), [(0, 1), (2, 3), (4, 5), (6, 7), (1, 2), (5, 6), (3, 4)]);
        for frame in Frame::all().into_iter().filter(|frame| frame.shape != Shape::Untied) {
            let wanted = if matches!(frame.shape, Shape::Groups | Shape::Spread) { 192 } else { 255 };
            assert_eq!(frame.joins().len(), wanted, "{}", frame.name());
        }
    }

    #[test]
    fn names() {
        for frame in Frame::all() {
            assert_eq!(Frame::named(&frame.name()), Some(frame));
            let shorter = Frame { counts: 32, ..frame };
            assert_eq!(Frame::named(&shorter.name()), Some(shorter));
        }
        let wrong = ["chain", "chain-medium", "chain-small/0", "chain-small/30", "chain-small/260", "chain-small/x", ""];
        assert!(wrong.iter().all(|name| Frame::named(name).is_none()));
    }
}
