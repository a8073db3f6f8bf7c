//! The planner on document 01's jobs, on small jobs against a search, and on large jobs against their own ties and bounds.

use std::collections::BTreeMap;
use std::fs;
use std::path::Path;

use crate::amendments::amended;
use crate::fixes::{self, CASES};
use crate::job::Job;
use crate::made::{self, Size};
use crate::plan::{plan, plan_job, Outcome, Sheet};
use crate::print::{print, print_map};
use crate::random::Random;
use crate::search::{best, search};

#[test]
fn examples() {
    let folder = Path::new(env!("CARGO_MANIFEST_DIR")).join("../examples");
    let (mut tried, mut maps, mut amended) = (0, 0, 0);
    for entry in fs::read_dir(folder).expect("the folder of examples") {
        let path = entry.expect("a file").path();
        if path.extension().is_some_and(|extension| extension == "job") {
            let bytes = fs::read(&path).expect("a job");
            let amendments = fs::read(path.with_extension("amendments")).unwrap_or_default();
            let wanted = fs::read_to_string(path.with_extension("out")).expect("the print of an example");
            assert_eq!(print(&plan(&bytes, &amendments)), wanted, "{}", path.display());
            tried += 1;
            amended += u32::from(!amendments.is_empty());
            if let Ok(wanted) = fs::read_to_string(path.with_extension("map")) {
                assert_eq!(map_lines(&bytes, &amendments), wanted, "the map of {}", path.display());
                maps += 1;
            }
        }
    }
    assert!(
        tried >= 25 && maps >= 5 && amended >= 5,
        "only {tried} examples were found, with {maps} maps, and {amended} with amendments"
    );
}

/// The lines that the print program prints for the map of a job; none where it or its amendments are refused.
fn map_lines(bytes: &[u8], amendments: &[u8]) -> String {
    amended(bytes, amendments).map_or(String::new(), |job| print_map(&job))
}

/// How often each case of the ties that join nothing was there.
struct Cases(BTreeMap<&'static str, u32>);

impl Cases {
    fn new() -> Cases {
        Cases(CASES.1.iter().map(|&(case, _)| (case, 0)).collect())
    }

    fn add(&mut self, job: &Job, outcome: &Outcome) {
        let found = fixes::cases(job, outcome);
        found.into_iter().for_each(|case| *self.0.get_mut(case).expect("a case of the table") += 1);
    }

    fn require(&self, least: u32) {
        assert!(self.0.values().all(|&times| times >= least), "{:?}", self.0);
    }
}

#[test]
fn small_jobs_as_by_search() {
    let (mut planned, mut chosen, mut no_fit) = (0, 0, 0);
    let mut cases = Cases::new();
    for number in 0..20_000 {
        let random = &mut Random::new(3, number);
        let job = if random.chance(50) { made::hidden(random, Size::Small) } else { made::wild(random, 5) };
        let Some(wanted) = search(&job, 3_000) else { continue };
        assert_eq!(plan_job(&job), wanted, "job {number}: {job:?}");
        cases.add(&job, &wanted);
        match wanted {
            Outcome::Planned(sheet) => {
                planned += 1;
                chosen += u32::from(sheet.groups.iter().any(|row| row.fits > 1));
            }
            _ => no_fit += 1,
        }
    }
    assert!(
        planned > 4_000 && chosen > 2_000 && no_fit > 2_000,
        "{planned} planned, {chosen} with a choice, {no_fit} no fit"
    );
    cases.require(30);
}

/// Of the whole job every other fit-out has less worth, or equal worth and a lower number where the two first differ.
#[test]
fn small_jobs_are_best_of_all_lists() {
    let (mut planned, mut among_equals) = (0, 0);
    let mut cases = Cases::new();
    for number in 0..20_000 {
        let random = &mut Random::new(5, number);
        let job = if random.chance(50) { made::hidden(random, Size::Small) } else { made::wild(random, 5) };
        let Some(wanted) = best(&job, 3_000) else { continue };
        let outcome = plan_job(&job);
        cases.add(&job, &outcome);
        let given = match outcome {
            Outcome::Planned(sheet) => Some(sheet.counts.iter().map(|row| row.number).collect::<Vec<i64>>()),
            _ => None,
        };
        planned += u32::from(wanted.is_some());
        among_equals += u32::from(wanted.as_ref().is_some_and(|best| best.equals > 1));
        assert_eq!(given, wanted.map(|best| best.numbers), "job {number}: {job:?}");
    }
    assert!(planned > 3_000 && among_equals > 500, "{planned} planned, {among_equals} among equals");
    cases.require(30);
}

/// The numbers of the fit-out at the k-th place of each group, or past the ends.
fn numbers(sheet: &Sheet, k: impl Fn(usize) -> i64) -> Vec<i64> {
    sheet.counts.iter().map(|row| row.base + row.step * k(row.group)).collect()
}

fn ties_hold(job: &Job, numbers: &[i64]) -> bool {
    job.equations.iter().all(|tie| tie.a * numbers[tie.left] + tie.b * numbers[tie.right] == tie.c)
}

/// Whether some count of the group is out of its bounds.
fn leaves_bounds(job: &Job, sheet: &Sheet, numbers: &[i64], group: usize) -> bool {
    let counts = job.counts.iter().zip(&sheet.counts).zip(numbers);
    counts.filter(|((_, row), _)| row.group == group).any(|((count, _), &x)| x < count.low || count.high < x)
}

/// The first and the last member of every family are fit-outs, the next past either end is none, and none lies between
/// two members: all differences of whole solutions are multiples of one without a common factor.
fn check_families(job: &Job, sheet: &Sheet) {
    let (first, last) = (numbers(sheet, |_| 0), numbers(sheet, |g| sheet.groups[g].fits - 1));
    assert!(ties_hold(job, &first) && ties_hold(job, &last));
    let (before, after) = (numbers(sheet, |_| -1), numbers(sheet, |g| sheet.groups[g].fits));
    for (group, row) in sheet.groups.iter().enumerate() {
        let steps = sheet.counts.iter().filter(|count| count.group == group).map(|count| count.step);
        assert!(!leaves_bounds(job, sheet, &first, group) && !leaves_bounds(job, sheet, &last, group));
        if row.fits > 1 {
            assert!(leaves_bounds(job, sheet, &before, group) && leaves_bounds(job, sheet, &after, group));
            assert_eq!(steps.fold(0, made::gcd), 1);
        }
    }
}

/// The hidden fit-out is a member of each group's family, and not worth more than the sheet.
fn check_hidden(job: &Job, sheet: &Sheet, hidden: &[i64]) {
    let place = |g: usize| {
        let lowest = sheet.counts.iter().position(|row| row.group == g).expect("a group has a count");
        let row = &sheet.counts[lowest];
        if row.step == 0 {
            0
        } else {
            (hidden[lowest] - row.base) / row.step
        }
    };
    assert_eq!(numbers(sheet, place), hidden);
    assert!((0..sheet.groups.len()).all(|g| (0..sheet.groups[g].fits).contains(&place(g))));
    let worth: i64 = job.counts.iter().zip(hidden).map(|(count, x)| count.weight * x).sum();
    assert!(worth <= sheet.worth);
}

#[test]
fn large_jobs_keep_their_ties() {
    let mut planned = 0;
    let mut cases = Cases::new();
    for number in 0..1_500 {
        let random = &mut Random::new(4, number);
        let size = random.pick(&[Size::Middle, Size::Large]);
        let (job, hidden) = made::hidden_with_fit(random, size);
        let outcome = plan_job(&job);
        cases.add(&job, &outcome);
        match (outcome, hidden) {
            (Outcome::Planned(sheet), hidden) => {
                check_families(&job, &sheet);
                hidden.iter().for_each(|hidden| check_hidden(&job, &sheet, hidden));
                planned += 1;
            }
            (outcome, hidden) => assert!(hidden.is_none(), "job {number} has a fit-out: {outcome:?}"),
        }
    }
    assert!(planned > 1_000, "only {planned} were planned");
    cases.require(5);
}
