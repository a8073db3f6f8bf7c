//! What came of the jobs of a comparison, and whether every kind of job was there often enough.

use std::collections::BTreeMap;

use crate::amendments::{self, amended, cases};
use crate::compare::{Input, Kind};
use crate::fixes;
use crate::job::{self, Job, Refusal};
use crate::plan::{Outcome, Sheet};
use crate::tally::Part;

#[derive(Default)]
pub struct Results {
    planned: u64,
    no_fit: u64,
    refused: u64,
    /// refused for the job itself, by reason, from 1
    job_refused: [u64; 8],
    /// the same from 5: at the first row, at the last of several, at another
    rows: [[u64; 3]; 3],
    /// planned, with two or more fits in a group of two or more counts; and in one of a hundred or more
    chosen: u64,
    chosen_large: u64,
    /// planned, with equally good fit-outs in a group with a falling count; in one with a weight; in two or more groups
    equals: [u64; 3],
    /// of ties that join nothing and of amendments, by the name of the case
    cases: BTreeMap<&'static str, u64>,
    /// refused for 6 or 7, at a row behind one that joins nothing
    behind_fix: u64,
    /// refused for the job itself, with faults of the amendments too
    both_faulty: u64,
    pub different: u64,
}

impl Results {
    pub fn add(&mut self, input: &Input, outcome: &Outcome) {
        self.add_cases(cases::cases(&input.job, input.amendments(), outcome));
        if let Ok(job) = amended(&input.job, input.amendments()) {
            self.add_cases(fixes::cases(&job, outcome));
            if let Outcome::Planned(sheet) = outcome {
                self.add_planned(&job, sheet);
            }
        }
        if let Err(refusal) = job::read(&input.job) {
            self.add_refused(&input.job, &refusal);
            self.both_faulty += u64::from(amendments::read(input.amendments(), job::MOST_COUNTS).is_err());
        }
        match outcome {
            Outcome::Planned(_) => self.planned += 1,
            Outcome::NoFit(_) => self.no_fit += 1,
            Outcome::Refused(_) => self.refused += 1,
        }
    }

    fn add_cases(&mut self, cases: Vec<&'static str>) {
        cases.into_iter().for_each(|case| *self.cases.entry(case).or_default() += 1);
    }

    fn add_planned(&mut self, job: &Job, sheet: &Sheet) {
        self.chosen += u64::from(has_choice(sheet, 2));
        self.chosen_large += u64::from(has_choice(sheet, 100));
        let groups: Vec<usize> =
            (0..sheet.groups.len()).filter(|&g| sheet.groups[g].fits > 1 && sheet.groups[g].gain == 0).collect();
        let counts = || sheet.counts.iter().zip(&job.counts).filter(|(row, _)| groups.contains(&row.group));
        self.equals[0] += u64::from(counts().any(|(row, _)| row.step < 0));
        self.equals[1] += u64::from(counts().any(|(_, count)| count.weight != 0));
        self.equals[2] += u64::from(groups.len() > 1);
    }

    fn add_refused(&mut self, bytes: &[u8], refusal: &Refusal) {
        let reason = usize::from(refusal.reason);
        self.job_refused[reason] += 1;
        if reason >= 5 {
            let (n, m) = job::rows(bytes);
            let last = if reason == 5 { n } else { m } - 1;
            let place = match refusal.row {
                0 => 0,
                row if row == last => 1,
                _ => 2,
            };
            self.rows[reason - 5][place] += 1;
        }
        if let (6.., Ok(job)) = (reason, job::read_rows(bytes)) {
            self.behind_fix += u64::from(job.equations[..refusal.row].iter().any(|tie| !tie.joins()));
        }
    }

    /// Whether every kind of job is there often enough for the comparison to mean something. A short run may lack some.
    fn is_varied(&self, kind: Kind, jobs: u64) -> bool {
        if jobs < 1_000 {
            return true;
        }
        let share = |part: u64, of: u64| part * of >= jobs;
        let reasons = |of| self.job_refused[1..].iter().all(|&times| share(times, of));
        let cases = |rarer: u64| {
            let mut cases = parts(kind).into_iter().flat_map(|part| self.cases(part));
            cases.all(|(_, of, times)| share(times, rarer * of))
        };
        match kind {
            Kind::Mixed => {
                let choices = share(self.chosen, 4) && share(self.chosen_large, 40);
                let equals = self.equals.iter().all(|&times| share(times, 25));
                share(self.planned, 3) && share(self.no_fit, 10) && choices && equals && cases(1) && reasons(200)
            }
            Kind::Spoiled => {
                let rows = self.rows.iter().flatten().all(|&times| share(times, 100));
                let behind = share(self.behind_fix, 50) && share(self.both_faulty, 10);
                // most are refused before their amendments are looked at
                share(self.planned + self.no_fit, 20) && reasons(30) && rows && behind && cases(3)
            }
        }
    }

    /// Each case of the part with the share that is asked of it, and how often it was there.
    fn cases(&self, part: Part) -> impl Iterator<Item = (&'static str, u64, u64)> + '_ {
        part.1.iter().map(|&(case, of)| (case, of, *self.cases.get(case).unwrap_or(&0)))
    }

    /// Print what came of it; whether all is well.
    pub fn report(&self, kind: Kind, seed: u64, jobs: u64) -> bool {
        let varied = self.is_varied(kind, jobs);
        println!("second: refused for the job, by reason, from 1: {:?}", &self.job_refused[1..]);
        match kind {
            Kind::Mixed => self.report_choices(),
            Kind::Spoiled => self.report_rows(),
        }
        for part in parts(kind) {
            let cases: Vec<String> = self.cases(part).map(|(case, _, times)| format!("{case} {times}")).collect();
            println!("second: {}: {}", part.0, cases.join(", "));
        }
        let verdict = match self.different {
            0 if varied => "all equal".to_string(),
            0 => "all equal, but FAILED: some kind of job is too rare".to_string(),
            different => format!("{different} DIFFERENT"),
        };
        let (planned, no_fit, refused) = (self.planned, self.no_fit, self.refused);
        let what = match kind {
            Kind::Mixed => "jobs",
            Kind::Spoiled => "spoiled jobs",
        };
        println!("second: seed {seed}, {jobs} {what} ({planned} planned, {no_fit} no fit, {refused} refused), {verdict}");
        varied && self.different == 0
    }

    fn report_choices(&self) {
        let (chosen, large, [falling, weighed, groups]) = (self.chosen, self.chosen_large, self.equals);
        println!("second: planned with a choice in a group of 2 or more counts: {chosen}; of 100 or more: {large}");
        println!(
            "second: planned with equally good fit-outs in a group with a falling count: {falling}; \
             with a weight: {weighed}; in two or more groups: {groups}"
        );
    }

    fn report_rows(&self) {
        println!("second: of 5 to 7 at the first row, at the last and between: {:?}", self.rows);
        println!("second: of 6 and 7 behind a tie that joins nothing: {}", self.behind_fix);
        println!("second: for the job, with faults of its amendments too: {}", self.both_faulty);
    }
}

/// The cases that are counted.
fn parts(kind: Kind) -> Vec<Part> {
    match kind {
        Kind::Mixed => vec![fixes::CASES, cases::TAKEN, cases::PLACES, cases::FAULTS],
        Kind::Spoiled => vec![cases::PLACES],
    }
}

/// Whether a group of so many counts has two or more fits.
fn has_choice(sheet: &Sheet, counts: usize) -> bool {
    let size = |group| sheet.counts.iter().filter(|row| row.group == group).count();
    (0..sheet.groups.len()).any(|group| sheet.groups[group].fits > 1 && size(group) >= counts)
}
