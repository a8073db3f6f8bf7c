//! Ties that join nothing (document 02, #102): the cases of them that a job has.

use crate::job::{Equation, Job, MOST_COEFFICIENT};
use crate::map;
use crate::plan::{plan_job, Outcome, Sheet};
use crate::tally::Part;

/// With each, in how many jobs there is to be one at least. "0" is a coefficient, and the sum is that of a count that is named twice.
pub const CASES: Part = (
    "ties that join nothing",
    &[
        ("in a job", 8),
        ("a alone is 0", 50),
        ("b alone is 0", 50),
        ("both are 0", 15),
        ("a count twice", 30),
        ("a count twice, sum 0", 15),
        ("sum of 2,000,000", 60),
        ("between two groups", 30),
        ("between joined counts", 20),
        ("in the group of the right count alone", 100),
        ("before its count is joined", 20),
        ("after its count is joined", 15),
        ("0 = 0", 12),
        ("0 = c", 60),
        ("not whole", 150),
        ("planned with a tied group fixed", 60),
        ("planned with a choice beside 0 = 0", 30),
        ("no fit by these ties alone", 60),
        ("no fit at another count than that of 0 = c", 150),
        ("no fit in a group before that of 0 = c", 500),
    ],
);

/// The cases of a lawful job that was not refused, none twice.
pub fn cases(job: &Job, outcome: &Outcome) -> Vec<&'static str> {
    let groups = map::groups(job);
    let ties: Vec<Fix> = (0..job.equations.len()).filter_map(|row| Fix::new(job, &groups, row)).collect();
    if ties.is_empty() {
        return Vec::new();
    }
    let mut cases = vec!["in a job"];
    cases.extend(ties.iter().flat_map(|tie| [tie.form(), tie.place(job), tie.side()].concat()));
    cases.extend(match outcome {
        Outcome::Planned(sheet) => planned(sheet, &ties),
        Outcome::NoFit(lowest) => no_fit(job, &groups, *lowest, &ties),
        Outcome::Refused(_) => Vec::new(),
    });
    cases.sort_unstable();
    cases.dedup();
    cases
}

/// A tie that joins nothing: its row, its group and that of the count it does not belong to, and the coefficient of its count.
struct Fix<'a> {
    row: usize,
    tie: &'a Equation,
    group: usize,
    other_group: usize,
    coefficient: i64,
}

impl Fix<'_> {
    fn new<'a>(job: &'a Job, groups: &[usize], row: usize) -> Option<Fix<'a>> {
        let tie = &job.equations[row];
        let (home, other) = (tie.home(), tie.left + tie.right - tie.home());
        // of two different counts one coefficient at least is 0
        let coefficient = tie.a + tie.b;
        (!tie.joins()).then_some(Fix { row, tie, group: groups[home], other_group: groups[other], coefficient })
    }

    fn form(&self) -> Vec<&'static str> {
        let mut cases = vec![match (self.tie.left == self.tie.right, self.tie.a, self.tie.b) {
            (true, ..) if self.coefficient == 0 => "a count twice, sum 0",
            (true, ..) => "a count twice",
            (false, 0, 0) => "both are 0",
            (false, 0, _) => "a alone is 0",
            (false, ..) => "b alone is 0",
        }];
        if self.coefficient.abs() == 2 * MOST_COEFFICIENT {
            cases.push("sum of 2,000,000");
        }
        cases
    }

    fn place(&self, job: &Job) -> Vec<&'static str> {
        let mut cases = Vec::new();
        if self.tie.left != self.tie.right {
            let apart = self.group != self.other_group;
            cases.push(if apart { "between two groups" } else { "between joined counts" });
            if apart && self.tie.home() == self.tie.right {
                cases.push("in the group of the right count alone");
            }
        }
        let home = self.tie.home();
        let joined = |tie: &Equation| tie.joins() && (tie.left == home || tie.right == home);
        let (before, after) = job.equations.split_at(self.row);
        if before.iter().any(joined) {
            cases.push("after its count is joined");
        } else if after.iter().any(joined) {
            cases.push("before its count is joined");
        }
        cases
    }

    fn side(&self) -> Vec<&'static str> {
        match (self.coefficient, self.tie.c) {
            (0, 0) => vec!["0 = 0"],
            (0, _) => vec!["0 = c"],
            (x, c) if c % x != 0 => vec!["not whole"],
            _ => Vec::new(),
        }
    }
}

fn planned(sheet: &Sheet, ties: &[Fix]) -> Vec<&'static str> {
    let tied = |group| sheet.counts.iter().filter(|row| row.group == group).count() > 1;
    let mut cases = Vec::new();
    for tie in ties.iter().filter(|tie| tied(tie.group)) {
        if tie.coefficient != 0 {
            cases.push("planned with a tied group fixed");
        } else if sheet.groups[tie.group].fits > 1 {
            cases.push("planned with a choice beside 0 = 0");
        }
    }
    cases
}

fn no_fit(job: &Job, groups: &[usize], lowest: usize, ties: &[Fix]) -> Vec<&'static str> {
    let mut cases = Vec::new();
    // these ties join nothing, so that the groups stay as they are without them
    let joining = job.equations.iter().filter(|tie| tie.joins()).cloned().collect();
    if plan_job(&Job { counts: job.counts.clone(), equations: joining }) != Outcome::NoFit(lowest) {
        cases.push("no fit by these ties alone");
    }
    for tie in ties.iter().filter(|tie| tie.coefficient == 0 && tie.tie.c != 0) {
        if tie.group == groups[lowest] && tie.tie.home() != lowest {
            cases.push("no fit at another count than that of 0 = c");
        }
        if tie.group > groups[lowest] {
            cases.push("no fit in a group before that of 0 = c");
        }
    }
    cases
}

#[cfg(test)]
mod tests {
    use super::*;
    use crate::job::Count;

    /// left, right, a, b, c
    type Row = (usize, usize, i64, i64, i64);

    /// The cases of a job of five counts 0..9 with c0 - c1 = 0 and c2 - 2·c3 = 0, and these equations before, between and behind; "in a
    /// job" is understood.
    fn expect([before, between, behind]: [&[Row]; 3], wanted: &[&str]) {
        let all = [before, &[(0, 1, 1, -1, 0)], between, &[(2, 3, 1, -2, 0)], behind].concat();
        let equations: Vec<Equation> = all.iter().map(|&(left, right, a, b, c)| Equation { left, right, a, b, c }).collect();
        let job = Job { counts: vec![Count { low: 0, high: 9, weight: 0 }; 5], equations };
        let mut wanted = wanted.to_vec();
        wanted.extend((all.len() > 2).then_some("in a job"));
        wanted.sort_unstable();
        assert_eq!(cases(&job, &plan_job(&job)), wanted, "{all:?}");
    }

    #[test]
    fn of_jobs() {
        let (before, after) = ("before its count is joined", "after its count is joined");
        let (apart, joined) = ("between two groups", "between joined counts");
        let (fixed, free) = ("planned with a tied group fixed", "planned with a choice beside 0 = 0");
        let by_these = "no fit by these ties alone";
        expect([&[], &[], &[]], &[]);
        expect([&[(0, 1, 2, 0, 8)], &[], &[]], &["b alone is 0", joined, before, fixed]);
        expect([&[], &[(0, 1, 0, 2, 8)], &[]], &["a alone is 0", joined, after, fixed]);
        let right = "in the group of the right count alone";
        expect([&[], &[(0, 3, 0, 2, 8)], &[]], &["a alone is 0", apart, right, before, fixed]);
        expect([&[], &[(0, 3, 2, 0, 8)], &[]], &["b alone is 0", apart, after, fixed]);
        expect([&[], &[], &[(4, 4, 1, 2, 8)]], &["a count twice", "not whole", by_these]);
        expect([&[], &[], &[(4, 4, 1_000_000, 1_000_000, 0)]], &["a count twice", "sum of 2,000,000"]);
        expect([&[], &[], &[(3, 3, 1, -1, 0)]], &["a count twice, sum 0", after, "0 = 0", free]);
        expect([&[], &[], &[(0, 4, 0, 0, 0)]], &["both are 0", apart, after, "0 = 0", free]);
        let another = "no fit at another count than that of 0 = c";
        expect([&[], &[], &[(3, 2, 0, 0, 1)]], &["both are 0", joined, after, "0 = c", by_these, another]);
        // the group of counts 0 and 1 has no fit by a ring, and by that alone
        let earlier = "no fit in a group before that of 0 = c";
        expect([&[], &[(0, 1, 1, -1, 1)], &[(2, 2, 0, 0, 1)]], &["a count twice, sum 0", after, "0 = c", earlier]);
    }
}
