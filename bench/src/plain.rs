//! The plain method of document 000, in i128. In each group every count is expressed by the lowest one along a spanning
//! tree, y = (p·x + o)/d; that all are whole is one congruence on x, and their bounds become bounds of x. The equations off
//! the tree are then put to the family base + step·k that the tree leaves.

use crate::amendments;
use crate::archive;
use crate::arithmetic::{exact, quotient};
use crate::graph::Graph;
use crate::job::{self, Equation, Job, Refusal};
use crate::sheet::{self, Line};
use crate::space::{Expression, Space};

#[derive(Clone, Copy, Debug, PartialEq, Eq)]
pub enum Outcome {
    Planned(i64),
    NoFit(u16),
    Refused(Refusal),
}

impl Outcome {
    /// As the archive gives it.
    pub fn fields(self) -> archive::Outcome {
        let none = archive::Outcome::default();
        match self {
            Outcome::Planned(worth) => archive::Outcome { kind: 1, worth, ..none },
            Outcome::NoFit(count) => archive::Outcome { kind: 2, count: count.into(), ..none },
            Outcome::Refused(Refusal { reason, row }) => archive::Outcome { kind: 3, reason, row, ..none },
        }
    }
}

pub fn plan(bytes: &[u8], amendments: &[u8], area: &mut [u8]) -> Outcome {
    let job = match job::read(bytes).and_then(|job| amendments::amended(job, amendments)) {
        Ok(job) => job,
        Err(refusal) => return Outcome::Refused(refusal),
    };
    let graph = Graph::new(&job);
    if area.len() < sheet::length(job.counts.len(), graph.groups()) {
        return Outcome::Refused(Refusal { reason: 8, row: 0 });
    }
    let mut families = Families::of_trees(&job, &graph);
    families.put_rest(&job, &graph);
    match families.fits.iter().position(|&fits| fits == 0) {
        Some(group) => Outcome::NoFit(graph.members(group)[0]),
        None => Outcome::Planned(sheet::write(area, &job, &graph.group, &families.fits, &families.lines)),
    }
}

/// The fit-outs of each group: how many, 0 where there is none, and the lines of its counts.
struct Families {
    fits: Vec<i128>,
    lines: Vec<Line>,
}

impl Families {
    /// What the equations of the trees and the bounds leave.
    fn of_trees(job: &Job, graph: &Graph) -> Families {
        let n = job.counts.len();
        let mut lines = vec![Line { base: 0, step: 0 }; n];
        let mut expressions = vec![Expression::LOWEST; n];
        let fits = (0..graph.groups())
            .map(|group| tree(job, graph, graph.members(group), &mut expressions, &mut lines).unwrap_or(0))
            .collect();
        Families { fits, lines }
    }

    /// The equations off the trees, in turn: those that close a ring, and those that join nothing.
    fn put_rest(&mut self, job: &Job, graph: &Graph) {
        for (equation, &in_tree) in job.equations.iter().zip(&graph.in_tree) {
            let group = usize::from(graph.group[usize::from(equation.home())]);
            if !in_tree && self.fits[group] > 0 {
                self.put(equation, graph, group);
            }
        }
    }

    /// Redundant, or one candidate k, or none. A count of another group has the coefficient 0, so that its line says nothing here.
    fn put(&mut self, equation: &Equation, graph: &Graph, group: usize) {
        let (left, right) = (self.lines[usize::from(equation.left)], self.lines[usize::from(equation.right)]);
        let (a, b, c) = (i128::from(equation.a), i128::from(equation.b), i128::from(equation.c));
        let slope = a * left.step + b * right.step;
        let rest = c - a * left.base - b * right.base;
        if slope == 0 && rest == 0 {
            return;
        }
        let candidate = if slope == 0 { None } else { exact(rest, slope) };
        match candidate.filter(|k| (0..self.fits[group]).contains(k)) {
            Some(k) => self.keep_one(graph, group, k),
            None => self.fits[group] = 0,
        }
    }

    fn keep_one(&mut self, graph: &Graph, group: usize, k: i128) {
        self.fits[group] = 1;
        for &member in graph.members(group) {
            let line = &mut self.lines[usize::from(member)];
            *line = Line { base: line.base + line.step * k, step: 0 };
        }
    }
}

/// How many fit-outs the tree leaves of a group, and the lines of its members; none where nothing fits.
fn tree(job: &Job, graph: &Graph, members: &[u16], expressions: &mut [Expression], lines: &mut [Line]) -> Option<i128> {
    let mut space = Space::new(job.counts[usize::from(members[0])])?;
    let mut known = 1;
    // two or more x keep the numbers of all expressions short
    while known < members.len() && space.has_several() {
        let z = usize::from(members[known]);
        let (y, [a, b, c]) = branch(job, graph, z);
        expressions[z] = expressions[y].across(a, b, c)?;
        space = space.restricted(expressions[z], job.counts[z])?;
        known += 1;
    }
    let fits = space.fits();
    for &member in &members[..known] {
        let y = expressions[usize::from(member)];
        let step = if fits > 1 { y.p * quotient(space.t, y.d) } else { 0 };
        lines[usize::from(member)] = Line { base: y.at(space.low), step };
    }
    follow(job, graph, &members[known..], lines)?;
    Some(fits)
}

/// One x is left: the numbers of the other members follow one by one, or one of them is not whole or out of its bounds.
fn follow(job: &Job, graph: &Graph, members: &[u16], lines: &mut [Line]) -> Option<()> {
    for &member in members {
        let z = usize::from(member);
        let (y, [a, b, c]) = branch(job, graph, z);
        let (base, count) = (exact(c - a * lines[y].base, b)?, job.counts[z]);
        if base < count.low.into() || base > count.high.into() {
            return None;
        }
        lines[z] = Line { base, step: 0 };
    }
    Some(())
}

/// The equation by which the tree reaches z, as a·y + b·z = c.
fn branch(job: &Job, graph: &Graph, z: usize) -> (usize, [i128; 3]) {
    let branch = graph.branch[z];
    let equation = &job.equations[usize::from(branch.equation)];
    let (a, b) = if equation.left == branch.from { (equation.a, equation.b) } else { (equation.b, equation.a) };
    (branch.from.into(), [a.into(), b.into(), equation.c.into()])
}
