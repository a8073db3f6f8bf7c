//! The plan of a small job by going through every list of numbers, as documents 01 and 02 define it; to test the planner with.

use crate::job::{Count, Equation, Job};
use crate::plan::{CountRow, GroupRow, Outcome, Sheet};

/// The outcome, or None where there are too many lists to go through.
pub fn search(job: &Job, most: i64) -> Option<Outcome> {
    let labels = labels(job);
    let mut lowest = labels.clone();
    lowest.sort();
    lowest.dedup();
    if lowest.iter().any(|&label| lists(&members(job, &labels, label), most).is_none()) {
        return None;
    }
    let mut sheet = Sheet { counts: vec![CountRow::default(); job.counts.len()], ..Sheet::default() };
    for (group, &label) in lowest.iter().enumerate() {
        let members = members(job, &labels, label);
        let fits = fits(job, &members);
        if fits.is_empty() {
            return Some(Outcome::NoFit(label));
        }
        enter(&mut sheet, &members, &fits, group);
    }
    sheet.worth = sheet.counts.iter().zip(&job.counts).map(|(row, count)| count.weight * row.number).sum();
    Some(Outcome::Planned(sheet))
}

/// The best fit-outs of a job: how many have the greatest worth, and of these the greatest list.
pub struct Best {
    pub equals: usize,
    pub numbers: Vec<i64>,
}

/// By going through every list of the whole job, whatever its groups: no best where there is no fit-out, and None where there are too many
/// lists to go through.
pub fn best(job: &Job, most: i64) -> Option<Option<Best>> {
    let all: Members = job.counts.iter().enumerate().collect();
    lists(&all, most)?;
    let fits = fits(job, &all);
    let worth = |list: &Vec<i64>| -> i64 { job.counts.iter().zip(list).map(|(count, x)| count.weight * x).sum() };
    let Some(greatest) = fits.iter().map(worth).max() else { return Some(None) };
    let equals: Vec<Vec<i64>> = fits.into_iter().filter(|list| worth(list) == greatest).collect();
    Some(Some(Best { equals: equals.len(), numbers: equals.into_iter().max()? }))
}

/// The lowest count that each count is joined to: labels are lowered along the ties until nothing changes.
fn labels(job: &Job) -> Vec<usize> {
    let mut labels: Vec<usize> = (0..job.counts.len()).collect();
    loop {
        let before = labels.clone();
        for tie in &job.equations {
            if let [(p, _), (q, _)] = terms(tie)[..] {
                let lower = labels[p].min(labels[q]);
                (labels[p], labels[q]) = (lower, lower);
            }
        }
        if labels == before {
            return labels;
        }
    }
}

/// The counts of a tie with their coefficients, those that are 0 left out. With the same count the coefficient is the sum of the two.
fn terms(tie: &Equation) -> Vec<(usize, i64)> {
    let mut terms =
        if tie.left == tie.right { vec![(tie.left, tie.a + tie.b)] } else { vec![(tie.left, tie.a), (tie.right, tie.b)] };
    terms.retain(|&(_, coefficient)| coefficient != 0);
    terms
}

type Members<'a> = Vec<(usize, &'a Count)>;

fn members<'a>(job: &'a Job, labels: &[usize], label: usize) -> Members<'a> {
    job.counts.iter().enumerate().filter(|&(i, _)| labels[i] == label).collect()
}

/// How many lists of numbers lie within the bounds, if they are not too many.
fn lists(members: &Members, most: i64) -> Option<i64> {
    let mut lists = 1i64;
    for (_, count) in members {
        lists = lists.checked_mul((count.high - count.low + 1).max(0))?;
    }
    (lists <= most).then_some(lists)
}

/// Every fit-out of the group, in rising order.
fn fits(job: &Job, members: &Members) -> Vec<Vec<i64>> {
    let mut lists = vec![Vec::new()];
    if members.iter().any(|(_, count)| count.low > count.high) {
        return Vec::new();
    }
    for (_, count) in members {
        lists = lists.iter().flat_map(|list| longer(list, count)).collect();
    }
    lists.retain(|list| job.equations.iter().all(|tie| holds(tie, members, list)));
    lists
}

fn longer(list: &[i64], count: &Count) -> Vec<Vec<i64>> {
    (count.low..=count.high).map(|x| [list, &[x]].concat()).collect()
}

/// A tie of another group counts as kept. One without a term is of the left count's group.
fn holds(tie: &Equation, members: &Members, list: &[i64]) -> bool {
    let number = |i| members.iter().position(|&(count, _)| count == i).map(|at| list[at]);
    let terms = terms(tie);
    let group = terms.first().map_or(tie.left, |&(count, _)| count);
    let value = |&(count, coefficient)| coefficient * number(count).expect("the counts of two terms are joined");
    number(group).is_none() || terms.iter().map(value).sum::<i64>() == tie.c
}

/// Base, step, fits, the chosen place and gain, read off the list of all fit-outs. The best is that of greatest worth and, among equals,
/// the greatest list: the one with the higher number where two first differ.
fn enter(sheet: &mut Sheet, members: &Members, fits: &[Vec<i64>], group: usize) {
    let worth = |list: &Vec<i64>| -> i64 { members.iter().zip(list).map(|((_, count), x)| count.weight * x).sum() };
    let at = (0..fits.len()).max_by_key(|&k| (worth(&fits[k]), &fits[k])).expect("there is a fit-out");
    let steps: Vec<i64> = match fits {
        [first, second, ..] => second.iter().zip(first).map(|(y, x)| y - x).collect(),
        _ => vec![0; members.len()],
    };
    let gain = worth(&steps);
    for (place, &(i, _)) in members.iter().enumerate() {
        let (base, step) = (fits[0][place], steps[place]);
        for (k, list) in fits.iter().enumerate() {
            assert_eq!(list[place], base + step * k as i64, "the fit-outs are no family");
        }
        sheet.counts[i] = CountRow { number: fits[at][place], base, step, group };
    }
    sheet.groups.push(GroupRow { fits: fits.len() as i64, at: at as i64, gain });
}
