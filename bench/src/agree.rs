//! The archive and the plain program on the same calls: outcome, and the whole area byte for byte.

use std::io::{self, Write};

use crate::archive::{self, Outcome};
use crate::job::{self, Equation, MOST_COUNTS, MOST_EQUATIONS};
use crate::made::Call;
use crate::plain;
use crate::progress::Progress;
use crate::sheet::{self, Sheet};

/// Compare on so many jobs, up to the first difference; whether all is well. The last line says what was done.
pub fn agree(out: &mut impl Write, seed: u64, jobs: u64, first: u64) -> io::Result<bool> {
    let mut tally = Tally::default();
    let mut progress = Progress::new("jobs compared", jobs);
    for number in first..first.saturating_add(jobs) {
        let call = Call::new(seed, number);
        match compared(&call.job, &call.amendments, &call.area) {
            Ok((outcome, area)) => tally.add(&call, &outcome, &area),
            Err(found) => {
                writeln!(out, "bench: seed {seed}, job {number} DIFFERS; to run it again: bench agree {seed} 1 {number}")?;
                found.iter().try_for_each(|line| writeln!(out, "bench: {line}"))?;
                return Ok(false);
            }
        }
        progress.done(number - first + 1);
    }
    tally.report(out, seed, jobs)
}

/// What both give, or in words what differs.
pub fn compared(job: &[u8], amendments: &[u8], area: &[u8]) -> Result<(Outcome, Vec<u8>), Vec<String>> {
    let (mut ours, mut plain) = (area.to_vec(), area.to_vec());
    let given = archive::plan(job, amendments, &mut ours);
    let wanted = plain::plan(job, amendments, &mut plain).fields();
    let mut found = Vec::new();
    if given != wanted {
        found.push(format!("outcome: the archive gives {}, the plain program {}", words(&given), words(&wanted)));
    }
    let different = || (0..area.len()).filter(|&at| ours[at] != plain[at]);
    if let Some(at) = different().next() {
        let place = place(job, at);
        let (x, y, many) = (ours[at], plain[at], different().count());
        found
            .push(format!("area: byte {at} ({place}) is {x} by the archive, {y} by the plain program; {many} bytes differ"));
    }
    if found.is_empty() {
        Ok((given, ours))
    } else {
        Err(found)
    }
}

fn words(outcome: &Outcome) -> String {
    match *outcome {
        Outcome { kind: 1, count: 0, reason: 0, row: 0, worth } => format!("planned, worth {worth}"),
        Outcome { kind: 2, count, reason: 0, row: 0, worth: 0 } => format!("no fit at count {count}"),
        Outcome { kind: 3, count: 0, reason, row, worth: 0 } => format!("refused {reason} row {row}"),
        odd => format!("{odd:?}"),
    }
}

/// What the sheet has at that byte of the area.
fn place(job: &[u8], at: usize) -> String {
    let n = job::read(job).map_or(0, |job| job.counts.len());
    let row = at.saturating_sub(sheet::HEADER) / sheet::ROW;
    match at {
        0..sheet::HEADER => "header".to_string(),
        _ if row < n => format!("row of count {row}"),
        _ => format!("row of group {}", row - n),
    }
}

/// The forms of a tie that joins nothing.
const FORMS: [&str; 5] = ["a alone 0", "b alone 0", "both 0", "a count twice", "a count twice with the sum 0"];

/// Which of them it has, or none.
fn form(tie: &Equation) -> Option<usize> {
    match (tie.left == tie.right, tie.a, tie.b) {
        (true, a, b) => Some(3 + usize::from(a + b == 0)),
        (false, 0, 0) => Some(2),
        (false, 0, _) => Some(0),
        (false, _, 0) => Some(1),
        _ => None,
    }
}

/// How often each kind of job was there, so that an agreement on nothing does not pass.
#[derive(Default)]
struct Tally {
    planned: u64,
    no_fit: u64,
    /// by reason, from 1; for 5 the job's own
    refused: [u64; 13],
    /// refused for 5 of an amendment
    amendment_range: u64,
    /// with amendments: planned, and no fit
    amended: [u64; 2],
    /// planned, with a tied group of several fits; of several with equal worth; of one fit; and as a full frame
    several: u64,
    equal: u64,
    one: u64,
    full: u64,
    /// by the form of a tie that joins nothing, with one at least: planned, and no fit
    forms: [[u64; 2]; 5],
}

impl Tally {
    fn add(&mut self, call: &Call, outcome: &Outcome, area: &[u8]) {
        match (outcome.kind, outcome.reason) {
            (1, _) => self.add_planned(&call.job, &Sheet::read(area)),
            (2, _) => self.no_fit += 1,
            (_, 5) if job::read(&call.job).is_ok() => self.amendment_range += 1,
            (_, reason) => self.refused[reason as usize - 1] += 1,
        }
        if outcome.kind < 3 {
            let end = outcome.kind as usize - 1;
            self.add_forms(&call.job, end);
            self.amended[end] += u64::from(!call.amendments.is_empty());
        }
    }

    fn add_forms(&mut self, job: &[u8], end: usize) {
        let ties = job::read(job).map_or(Vec::new(), |job| job.equations);
        for (number, ends) in self.forms.iter_mut().enumerate() {
            ends[end] += u64::from(ties.iter().any(|tie| form(tie) == Some(number)));
        }
    }

    fn add_planned(&mut self, job: &[u8], sheet: &Sheet) {
        let has = |test: &dyn Fn(u32, i64) -> bool| {
            let rows = sheet.groups.iter().enumerate();
            u64::from(rows.filter(|(_, row)| test(row.fits, row.gain)).any(|(group, _)| sheet.size(group) > 1))
        };
        self.planned += 1;
        self.several += has(&|fits, _| fits > 1);
        self.equal += has(&|fits, gain| fits > 1 && gain == 0);
        self.one += has(&|fits, _| fits == 1);
        self.full += u64::from(job.len() == job::length(MOST_COUNTS, MOST_EQUATIONS));
    }

    /// The kinds that never were there. A short run may lack some.
    fn missing(&self, jobs: u64) -> Vec<String> {
        if jobs < 1_000 {
            return Vec::new();
        }
        let outcomes = [("planned", self.planned), ("no fit", self.no_fit)];
        let [amended_planned, amended_no_fit] = self.amended;
        let amended = [
            ("planned as amended", amended_planned),
            ("no fit as amended", amended_no_fit),
            ("refused for 5 of an amendment", self.amendment_range),
        ];
        let kinds =
            [("several fits", self.several), ("equal worth", self.equal), ("one fit", self.one), ("full frame", self.full)];
        let named = outcomes.into_iter().chain(amended).chain(kinds).map(|(name, times)| (name.to_string(), times));
        let refused = self.reasons().map(|(reason, times)| (format!("refused for {reason}"), times));
        let forms =
            FORMS.iter().zip(self.forms).map(|(name, ends)| (format!("both ends with {name}"), ends[0].min(ends[1])));
        named.chain(refused).chain(forms).filter(|(_, times)| *times == 0).map(|(name, _)| name).collect()
    }

    /// Those that a call that lends no map can have.
    fn reasons(&self) -> impl Iterator<Item = (u32, u64)> {
        (1..).zip(self.refused).filter(|(reason, _)| ![9, 10].contains(reason))
    }

    fn report(&self, out: &mut impl Write, seed: u64, jobs: u64) -> io::Result<bool> {
        let refused: Vec<String> = self.reasons().map(|(reason, times)| format!("for {reason}: {times}")).collect();
        writeln!(out, "bench: planned {}, no fit {}, refused {}", self.planned, self.no_fit, refused.join(", "))?;
        let [planned, no_fit] = self.amended;
        let range = self.amendment_range;
        writeln!(out, "bench: with amendments planned {planned}, no fit {no_fit}, refused for 5 of an amendment {range}")?;
        writeln!(
            out,
            "bench: planned with a tied group of several fits {}, of these of equal worth {}; of one fit {}; full frames {}",
            self.several, self.equal, self.one, self.full
        )?;
        let forms: Vec<String> =
            FORMS.iter().zip(self.forms).map(|(name, [planned, no_fit])| format!("{name}: {planned}, {no_fit}")).collect();
        writeln!(out, "bench: with a tie that joins nothing, planned and no fit: {}", forms.join("; "))?;
        let missing = self.missing(jobs);
        let verdict =
            if missing.is_empty() { String::new() } else { format!(", but FAILED: never: {}", missing.join(", ")) };
        writeln!(
            out,
            "bench: seed {seed}, {jobs} jobs, the archive and the plain program agree in outcome and area{verdict}"
        )?;
        Ok(missing.is_empty())
    }
}
