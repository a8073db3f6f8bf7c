//! The groups of a job, and a spanning tree of each (document 000, section 3).

use std::ops::Range;

use crate::job::Job;

/// The equation by which the tree reaches a count, and the count that it comes from.
#[derive(Clone, Copy)]
pub struct Branch {
    pub from: u16,
    pub equation: u16,
}

/// Groups are numbered in the order of their lowest counts.
pub struct Graph {
    /// the group of each count
    pub group: Vec<u16>,
    /// the counts, group by group: of each the lowest first, then by their distance from it in the tree
    order: Vec<u16>,
    /// where each group begins in `order`, and at last where it ends
    begins: Vec<usize>,
    /// of each count; not meant of the lowest of a group
    pub branch: Vec<Branch>,
    /// of each equation, whether the tree has it
    pub in_tree: Vec<bool>,
}

/// At a count: an equation that joins it, and the count that it is joined with.
#[derive(Clone, Copy)]
struct Edge {
    to: u16,
    equation: u16,
}

const NO_GROUP: u16 = u16::MAX;

impl Graph {
    pub fn new(job: &Job) -> Graph {
        let n = job.counts.len();
        let (starts, edges) = edges(job);
        let mut graph = Graph {
            group: vec![NO_GROUP; n],
            order: Vec::with_capacity(n),
            begins: Vec::with_capacity(n + 1),
            branch: vec![Branch { from: 0, equation: 0 }; n],
            in_tree: vec![false; job.equations.len()],
        };
        for count in 0..n {
            if graph.group[count] == NO_GROUP {
                graph.add_group(count as u16, &starts, &edges);
            }
        }
        graph.begins.push(n);
        graph
    }

    /// All counts that can be reached from this one, the nearest first.
    fn add_group(&mut self, lowest: u16, starts: &[u16], edges: &[Edge]) {
        let group = self.begins.len() as u16;
        let mut next = self.order.len();
        self.begins.push(next);
        self.group[usize::from(lowest)] = group;
        self.order.push(lowest);
        while let Some(&from) = self.order.get(next) {
            next += 1;
            let at = usize::from(from);
            for edge in &edges[usize::from(starts[at])..usize::from(starts[at + 1])] {
                let to = usize::from(edge.to);
                if self.group[to] == NO_GROUP {
                    self.group[to] = group;
                    self.branch[to] = Branch { from, equation: edge.equation };
                    self.in_tree[usize::from(edge.equation)] = true;
                    self.order.push(edge.to);
                }
            }
        }
    }

    pub fn groups(&self) -> usize {
        self.begins.len() - 1
    }

    fn range(&self, group: usize) -> Range<usize> {
        self.begins[group]..self.begins[group + 1]
    }

    /// The lowest first, and each behind the one that its branch comes from.
    pub fn members(&self, group: usize) -> &[u16] {
        &self.order[self.range(group)]
    }
}

/// The edges, count by count, and where those of each count begin; at last where they end.
fn edges(job: &Job) -> (Vec<u16>, Vec<Edge>) {
    let n = job.counts.len();
    let mut starts = vec![0u16; n + 1];
    for equation in job.equations.iter().filter(|equation| equation.joins()) {
        starts[usize::from(equation.left) + 1] += 1;
        starts[usize::from(equation.right) + 1] += 1;
    }
    for count in 0..n {
        starts[count + 1] += starts[count];
    }
    let mut places = starts.clone();
    let mut edges = vec![Edge { to: 0, equation: 0 }; 2 * job.equations.len()];
    for (number, equation) in job.equations.iter().enumerate().filter(|(_, equation)| equation.joins()) {
        for (from, to) in [(equation.left, equation.right), (equation.right, equation.left)] {
            let place = &mut places[usize::from(from)];
            edges[usize::from(*place)] = Edge { to, equation: number as u16 };
            *place += 1;
        }
    }
    (starts, edges)
}
