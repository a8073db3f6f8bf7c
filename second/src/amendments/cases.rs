//! The cases of amendments that a job comes with, by what came of it.

use super::faults::MOST_ROWS;
use super::{breaks, in_force, rows, Amendment, MOST_AMENDMENTS, ROW};
use crate::job::{self, Job, Refusal, MOST_COUNTS, MOST_EQUATIONS, MOST_NUMBER};
use crate::plan::{plan_job, Outcome};
use crate::tally::Part;

/// With each, in how many jobs there is to be one at least.
pub const TAKEN: Part = (
    "amendments taken",
    &[
        ("taken", 10),
        ("of several counts", 20),
        ("a chain", 15),
        ("a chain of five or more", 40),
        ("bounds as in the row", 25),
        ("bounds at a limit", 20),
        ("low above high in force", 100),
        ("a number of 2,147,483,648 or more", 30),
        ("512 amendments", 600),
        ("512 amendments on a full frame", 50_000),
        ("fit made", 200),
        ("no fit made", 150),
        ("another plan made", 60),
        ("planned beside a superseded low above high", 200),
    ],
);

/// The same of amendments that are refused, by the place in the table and the row. "Behind" is in a later row than one that breaks the rule
/// of a later reason.
pub const PLACES: Part = (
    "amendments refused",
    &[
        ("11 for the length", 300),
        ("11 for 513 amendments", 1_000),
        ("11 for more than 513", 500),
        ("11 at row 0", 300),
        ("11 at a later row", 400),
        ("11 behind 12", 2_000),
        ("12 at row 0", 150),
        ("12 at a later row", 150),
        ("12 behind 13", 4_000),
        ("12 behind 5", 1_000),
        ("13 at row 1", 2_000),
        ("13 at a later row", 400),
        ("13 behind 5", 2_000),
        ("5 at the first amendment", 500),
        ("5 at a later amendment", 800),
    ],
);

/// The same by what is wrong.
pub const FAULTS: Part = (
    "amendments with a fault",
    &[
        ("wrong length and a zero field that is not zero", 20_000),
        ("65,536 or more", 5_000),
        ("number 0", 400),
        ("equal number", 800),
        ("falling number", 1_000),
        ("count not below n", 500),
        ("count where n = 0", 600),
        ("superseding itself", 500),
        ("superseding a later one", 800),
        ("superseding one of another count", 800),
        ("superseding one that is not there", 300),
        ("second in force, superseding none", 800),
        ("second in force, superseding what another does", 2_000),
        ("second in force, superseding one alone", 800),
        ("out of range in force", 500),
        ("out of range and superseded", 800),
    ],
);

/// The cases of a lawful job, none twice; none at all where the job itself is refused, or an area.
pub fn cases(job: &[u8], amendments: &[u8], outcome: &Outcome) -> Vec<&'static str> {
    let (Ok(job), false) = (job::read(job), amendments.is_empty()) else { return Vec::new() };
    let all = rows(amendments);
    let mut cases = match outcome {
        Outcome::Refused(Refusal { reason: 8 | 10, .. }) => Vec::new(),
        Outcome::Refused(_) if !amendments.len().is_multiple_of(ROW) => wrong_length(&all),
        Outcome::Refused(_) if all.len() > MOST_AMENDMENTS => too_many(all.len()),
        Outcome::Refused(refusal) => refused(&all, refusal, job.counts.len()),
        _ => taken(&job, &all, outcome),
    };
    cases.sort_unstable();
    cases.dedup();
    cases
}

fn wrong_length(all: &[Amendment]) -> Vec<&'static str> {
    let mut cases = vec!["11 for the length"];
    // in row 0 it would be reported alike
    let zero_field = all.iter().position(|amendment| amendment.zero != 0);
    cases.extend(zero_field.is_some_and(|row| row > 0).then_some("wrong length and a zero field that is not zero"));
    cases
}

fn too_many(rows: usize) -> Vec<&'static str> {
    let mut cases = vec![if rows == MOST_AMENDMENTS + 1 { "11 for 513 amendments" } else { "11 for more than 513" }];
    cases.extend((rows >= MOST_ROWS - 1).then_some("65,536 or more"));
    cases
}

fn refused(all: &[Amendment], refusal: &Refusal, n: usize) -> Vec<&'static str> {
    let &Refusal { reason, row } = refusal;
    let mut cases = vec![match (reason, row) {
        (11, 0) => "11 at row 0",
        (11, _) => "11 at a later row",
        (12, 0) => "12 at row 0",
        (12, _) => "12 at a later row",
        (13, 1) => "13 at row 1",
        (13, _) => "13 at a later row",
        (_, 0) => "5 at the first amendment",
        _ => "5 at a later amendment",
    }];
    match reason {
        12 => cases.extend(misnumbered(all, row, n)),
        13 => cases.push(twice(all, row)),
        5 => cases.push(if in_force(all, row) { "out of range in force" } else { "out of range and superseded" }),
        _ => (),
    }
    for (first, later, name) in
        [(11, 12, "11 behind 12"), (12, 13, "12 behind 13"), (12, 5, "12 behind 5"), (13, 5, "13 behind 5")]
    {
        if first == reason && (0..row).any(|earlier| breaks(later, all, earlier, n)) {
            cases.push(name);
        }
    }
    cases
}

/// In which ways the row breaks 12.
fn misnumbered(all: &[Amendment], row: usize, n: usize) -> Vec<&'static str> {
    let (this, before) = (&all[row], row.checked_sub(1).map_or(0, |row| all[row].number));
    let mut cases = Vec::new();
    cases.extend(match this.number {
        0 => Some("number 0"),
        number if number == before => Some("equal number"),
        number if number < before => Some("falling number"),
        _ => None,
    });
    cases.extend((this.count >= n).then_some(if n == 0 { "count where n = 0" } else { "count not below n" }));
    let place = all.iter().position(|other| other.number == this.supersedes);
    cases.extend(match place {
        _ if this.supersedes == 0 => None,
        Some(other) if other == row => Some("superseding itself"),
        Some(other) if other > row => Some("superseding a later one"),
        Some(other) if all[other].count != this.count => Some("superseding one of another count"),
        Some(_) => None,
        None => Some("superseding one that is not there"),
    });
    cases
}

/// How the row comes to be a second one in force. Where it supersedes one alone, an earlier one is in force beside both.
fn twice(all: &[Amendment], row: usize) -> &'static str {
    match all[row].supersedes {
        0 => "second in force, superseding none",
        number if all[..row].iter().any(|other| other.supersedes == number) => {
            "second in force, superseding what another does"
        }
        _ => "second in force, superseding one alone",
    }
}

fn taken(job: &Job, all: &[Amendment], outcome: &Outcome) -> Vec<&'static str> {
    let mut cases = vec!["taken"];
    let mut add = |is_there: bool, name| cases.extend(is_there.then_some(name));
    let chain = |length| all.iter().any(|this| all.iter().filter(|other| other.count == this.count).count() >= length);
    add(all.iter().any(|amendment| amendment.count != all[0].count), "of several counts");
    add(chain(2), "a chain");
    add(chain(5), "a chain of five or more");
    add(all.iter().any(|amendment| amendment.number >= 1 << 31), "a number of 2,147,483,648 or more");
    let (most, full) =
        (all.len() == MOST_AMENDMENTS, (job.counts.len(), job.equations.len()) == (MOST_COUNTS, MOST_EQUATIONS));
    add(most, "512 amendments");
    add(most && full, "512 amendments on a full frame");
    cases.extend(bounds(job, all, outcome));
    cases.extend(made(job, outcome));
    cases
}

fn bounds(job: &Job, all: &[Amendment], outcome: &Outcome) -> Vec<&'static str> {
    let (binding, superseded): (Vec<usize>, Vec<usize>) = (0..all.len()).partition(|&row| in_force(all, row));
    let some = |rows: &[usize], test: &dyn Fn(&Amendment) -> bool| rows.iter().any(|&row| test(&all[row]));
    let turned = |amendment: &Amendment| amendment.low > amendment.high;
    let as_in_row = |amendment: &Amendment| {
        let count = &job.counts[amendment.count];
        (amendment.low, amendment.high) == (count.low, count.high)
    };
    let at_limit = |amendment: &Amendment| amendment.low.abs().max(amendment.high.abs()) == MOST_NUMBER;
    let planned = matches!(outcome, Outcome::Planned(_));
    let cases = [
        (some(&binding, &as_in_row), "bounds as in the row"),
        (some(&binding, &at_limit), "bounds at a limit"),
        (some(&binding, &turned), "low above high in force"),
        (planned && some(&superseded, &turned), "planned beside a superseded low above high"),
    ];
    cases.into_iter().filter(|case| case.0).map(|case| case.1).collect()
}

/// What the amendments made of the job's plan. Large jobs are not planned a second time.
fn made(job: &Job, outcome: &Outcome) -> Option<&'static str> {
    if job.counts.len() > 40 {
        return None;
    }
    match (plan_job(job), outcome) {
        (Outcome::NoFit(_), Outcome::Planned(_)) => Some("fit made"),
        (Outcome::Planned(_), Outcome::NoFit(_)) => Some("no fit made"),
        (Outcome::Planned(before), Outcome::Planned(after)) if before != *after => Some("another plan made"),
        _ => None,
    }
}

#[cfg(test)]
mod tests {
    use super::*;
    use crate::amendments::write;
    use crate::job::Count;
    use crate::plan::plan;

    /// Number, the number that it supersedes, count, zero field, low and high.
    type Row = (u32, u32, usize, u16, i64, i64);

    /// The cases of so many counts 0..9 with these amendments and some bytes behind them.
    fn expect(n: usize, rows: &[Row], behind: usize, wanted: &[&str]) {
        let job = job::write(&Job { counts: vec![Count { low: 0, high: 9, weight: 1 }; n], equations: Vec::new() });
        let amendment =
            |&(number, supersedes, count, zero, low, high): &Row| Amendment { number, supersedes, count, zero, low, high };
        let mut bytes = write(&rows.iter().map(amendment).collect::<Vec<Amendment>>());
        bytes.resize(bytes.len() + behind, 0);
        let mut wanted = wanted.to_vec();
        wanted.sort_unstable();
        assert_eq!(cases(&job, &bytes, &plan(&job, &bytes)), wanted, "{rows:?}");
    }

    #[test]
    fn of_those_taken() {
        expect(2, &[], 0, &[]);
        expect(2, &[(1, 0, 0, 0, 0, 9)], 0, &["taken", "bounds as in the row"]);
        expect(2, &[(1, 0, 0, 0, 9, 0)], 0, &["taken", "low above high in force", "no fit made"]);
        let limit = -1_000_000_000;
        expect(
            2,
            &[(1 << 31, 0, 0, 0, limit, 9)],
            0,
            &["taken", "bounds at a limit", "a number of 2,147,483,648 or more", "another plan made"],
        );
        let superseded = "planned beside a superseded low above high";
        expect(
            2,
            &[(1, 0, 0, 0, 9, 0), (2, 0, 1, 0, 2, 3), (3, 1, 0, 0, 4, 5)],
            0,
            &["taken", "of several counts", "a chain", superseded, "another plan made"],
        );
    }

    #[test]
    fn of_those_refused() {
        let (first, past) = ((1, 0, 0, 0, 0, 9), 1_000_000_001);
        expect(2, &[first], 1, &["11 for the length"]);
        expect(2, &[first, (2, 1, 0, 5, 0, 9)], 1, &["11 for the length", "wrong length and a zero field that is not zero"]);
        expect(2, &[first; 513], 0, &["11 for 513 amendments"]);
        expect(2, &[first; 514], 0, &["11 for more than 513"]);
        expect(2, &[(1, 0, 0, 5, 0, 9)], 0, &["11 at row 0"]);
        expect(2, &[(0, 0, 0, 0, 0, 9), (2, 0, 1, 5, 0, 9)], 0, &["11 at a later row", "11 behind 12"]);
        expect(0, &[first], 0, &["12 at row 0", "count where n = 0"]);
        expect(2, &[(1, 1, 2, 0, 0, 9)], 0, &["12 at row 0", "count not below n", "superseding itself"]);
        expect(2, &[(1, 0, 0, 0, 0, past), (1, 0, 1, 0, 0, 9)], 0, &["12 at a later row", "equal number", "12 behind 5"]);
        expect(2, &[first, (2, 1, 1, 0, 0, 9)], 0, &["12 at a later row", "superseding one of another count"]);
        expect(2, &[first, (2, 3, 0, 0, 0, 9)], 0, &["12 at a later row", "superseding one that is not there"]);
        expect(2, &[first, (2, 0, 0, 0, 0, past)], 0, &["13 at row 1", "second in force, superseding none"]);
        let third = (3, 1, 0, 0, 0, 9);
        let what = "second in force, superseding what another does";
        expect(2, &[first, (2, 1, 0, 0, 0, past), third], 0, &["13 at a later row", what, "13 behind 5"]);
        let alone = "second in force, superseding one alone";
        expect(2, &[first, (2, 0, 0, 0, 0, 9), (3, 2, 0, 0, 0, 9)], 0, &["13 at a later row", alone]);
        expect(2, &[(1, 0, 0, 0, 0, past)], 0, &["5 at the first amendment", "out of range in force"]);
        expect(
            2,
            &[(1, 0, 1, 0, 0, 9), (2, 0, 0, 0, past, 9), (3, 2, 0, 0, 0, 9)],
            0,
            &["5 at a later amendment", "out of range and superseded"],
        );
    }
}
