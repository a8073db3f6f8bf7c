//! Both programs on document 01's "Jobs to try", on the ties of document 02's #102 and the amendments of its #105, and on many jobs with
//! overflow checks where the build has them.

use crate::agree;
use crate::amendments::{self, Amendment};
use crate::archive::Outcome;
use crate::job::{self, Count, Equation, Job};
use crate::sheet::{self, CountRow, GroupRow, Sheet};

/// The bounds and weights of counts 0, 1, .. and the equations: left, right, a, b, c.
fn made(counts: &[(i32, i32, i32)], equations: &[(u16, u16, i32, i32, i64)]) -> Job {
    Job {
        counts: counts.iter().map(|&(low, high, weight)| Count { low, high, weight }).collect(),
        equations: equations.iter().map(|&(left, right, a, b, c)| Equation { left, right, a, b, c }).collect(),
    }
}

fn job_m() -> Job {
    made(&[(0, 20, -30), (0, 200, 4), (0, 9, -10), (2, 5, 0)], &[(0, 1, 16, -1, 0), (0, 2, 2, -3, 4)])
}

/// What both give in an area of that length, whose bytes are 0xA5 before.
fn given(job: &[u8], length: usize) -> (Outcome, Vec<u8>) {
    agree::compared(job, &[], &vec![0xA5; length]).unwrap_or_else(|found| panic!("{found:?}"))
}

fn sheet(job: &Job) -> Sheet {
    let (outcome, area) = given(&job::write(job), 8_216);
    let sheet = Sheet::read(&area);
    assert_eq!(outcome, Outcome { kind: 1, worth: sheet.worth, ..Outcome::default() });
    let length = sheet::length(sheet.counts.len(), sheet.groups.len());
    assert!(area[length..].iter().all(|&byte| byte == 0xA5));
    sheet
}

/// The job has no fit, and the area is untouched.
fn no_fit(job: &Job) -> u32 {
    let (outcome, area) = given(&job::write(job), 8_216);
    assert!(area.iter().all(|&byte| byte == 0xA5));
    assert_eq!(outcome, Outcome { kind: 2, count: outcome.count, ..Outcome::default() });
    outcome.count
}

/// Reason and row; the area is untouched.
fn refused(job: &[u8], length: usize) -> (u32, u32) {
    let (outcome, area) = given(job, length);
    assert!(area.iter().all(|&byte| byte == 0xA5));
    assert_eq!(outcome, Outcome { kind: 3, reason: outcome.reason, row: outcome.row, ..Outcome::default() });
    (outcome.reason, outcome.row)
}

fn count(number: i32, base: i32, step: i32, group: u16) -> CountRow {
    CountRow { number, base, step, group }
}

fn group(fits: u32, chosen: u32, gain: i64) -> GroupRow {
    GroupRow { fits, chosen, gain }
}

/// As document 01 prints it, with count 3 and group 1 as #104 has them.
#[test]
fn sheet_of_m() {
    let wanted = Sheet {
        worth: 314,
        counts: vec![count(11, 2, 3, 0), count(176, 32, 48, 0), count(6, 0, 2, 0), count(5, 2, 1, 1)],
        groups: vec![group(4, 3, 82), group(4, 3, 0)],
    };
    assert_eq!(sheet(&job_m()), wanted);
}

#[test]
fn areas_of_m() {
    let bytes = job::write(&job_m());
    assert_eq!(refused(&bytes, 119), (8, 0));
    let (outcome, area) = given(&bytes, 120);
    assert_eq!((outcome.kind, outcome.worth), (1, 314));
    assert_eq!(area[..24], *b"ANS1\x04\0\x02\0\x18\0\0\0\x58\0\0\0\x3A\x01\0\0\0\0\0\0");
}

#[test]
fn no_counts() {
    assert_eq!(sheet(&Job::default()), Sheet { worth: 0, counts: vec![], groups: vec![] });
    let (outcome, area) = given(&job::write(&Job::default()), 24);
    assert_eq!((outcome.kind, outcome.worth), (1, 0));
    assert_eq!(area, *b"ANS1\0\0\0\0\x18\0\0\0\x18\0\0\0\0\0\0\0\0\0\0\0");
}

#[test]
fn without_a_fit() {
    let (digit, small) = ((0, 9, 0), (0, 3, 0));
    assert_eq!(no_fit(&made(&[digit; 2], &[(0, 1, 2, 4, 7)])), 0);
    assert_eq!(no_fit(&made(&[(1, 4, 0), digit], &[(0, 1, 3, -5, 0)])), 0);
    assert_eq!(no_fit(&made(&[digit; 2], &[(0, 1, 1, 1, 5), (0, 1, 1, -1, 2)])), 0);
    assert_eq!(no_fit(&made(&[small; 2], &[(0, 1, 1, -1, 0), (0, 1, 1, -1, 1)])), 0);
    // the first group that has none is named by its lowest count
    assert_eq!(no_fit(&made(&[digit, (5, 4, 0), digit, digit], &[(3, 0, 2, 2, 4), (2, 1, 1, 1, 5)])), 1);
}

#[test]
fn rings() {
    let one = made(&[(0, 9, 0); 2], &[(0, 1, 1, 1, 5), (0, 1, 1, -1, 1)]);
    let wanted = Sheet { worth: 0, counts: vec![count(3, 3, 0, 0), count(2, 2, 0, 0)], groups: vec![group(1, 0, 0)] };
    assert_eq!(sheet(&one), wanted);
    // nothing has a weight, so by #104 the higher number at count 0 comes first
    let redundant = made(&[(0, 3, 0); 2], &[(0, 1, 1, -1, 0); 2]);
    let wanted = Sheet { worth: 0, counts: vec![count(3, 0, 1, 0), count(3, 0, 1, 0)], groups: vec![group(4, 3, 0)] };
    assert_eq!(sheet(&redundant), wanted);
}

#[test]
fn signs() {
    let job = made(&[(-5, 5, 0), (-3, 3, 1)], &[(0, 1, 1, 2, 0)]);
    let wanted = Sheet { worth: 2, counts: vec![count(-4, -4, 2, 0), count(2, 2, -1, 0)], groups: vec![group(5, 0, -1)] };
    assert_eq!(sheet(&job), wanted);
}

#[test]
fn widest() {
    let full = (-1_000_000_000, 1_000_000_000, 1_000_000);
    let wanted = Sheet {
        worth: 1_000_000_000_000_000,
        counts: vec![count(1_000_000_000, -1_000_000_000, 1, 0)],
        groups: vec![group(2_000_000_001, 2_000_000_000, 1_000_000)],
    };
    assert_eq!(sheet(&made(&[full], &[])), wanted);
    // without weights the last of the 2,000 is taken: 1,999 steps of 999,999 and of 1,000,000 from the bases
    let full = (-1_000_000_000, 1_000_000_000, 0);
    let wanted = Sheet {
        worth: 0,
        counts: vec![count(998_999_002, -999_998_999, 999_999, 0), count(999_000_001, -999_999_999, 1_000_000, 0)],
        groups: vec![group(2_000, 1_999, 0)],
    };
    assert_eq!(sheet(&made(&[full; 2], &[(0, 1, 1_000_000, -999_999, 1)])), wanted);
}

#[test]
fn limits() {
    let counts = |n: usize| job::write(&made(&vec![(0, 0, 0); n], &[]));
    assert_eq!(given(&counts(256), 8_216).0.kind, 1);
    assert_eq!(refused(&counts(257), 9_000), (3, 0));
    let tied = |a: i32| job::write(&made(&[(0, 0, 0); 2], &[(0, 1, a, 1, 0)]));
    assert_eq!(given(&tied(1_000_000), 100).0.kind, 1);
    assert_eq!(refused(&tied(1_000_001), 100), (7, 0));
    assert_eq!(given(&tied(0), 100).0.kind, 1);
    // a sum in range does not make up for a coefficient that is not
    let twice = |left, a, b| job::write(&made(&[(0, 0, 0); 2], &[(0, 0, 0, 0, 0), (left, 1, a, b, 0)]));
    assert_eq!(given(&twice(1, 1_000_000, 1_000_000), 100).0.kind, 1);
    assert_eq!([refused(&twice(1, 1_000_001, -1_000_001), 100), refused(&twice(1, 0, 2_000_000), 100)], [(7, 1); 2]);
    assert_eq!(refused(&twice(2, 1_000_001, 0), 100), (6, 1));
}

/// One count, and one equation that names it twice.
fn lone(count: (i32, i32, i32), (a, b, c): (i32, i32, i64)) -> Job {
    made(&[count], &[(0, 0, a, b, c)])
}

fn only(worth: i64, number: i32) -> Sheet {
    Sheet { worth, counts: vec![count(number, number, 0, 0)], groups: vec![group(1, 0, 0)] }
}

/// The coefficient is the sum of the two.
#[test]
fn the_same_count_twice() {
    let digit = (0, 9, 2);
    for sides in [(3, 0, 12), (0, 3, 12), (2, 1, 12), (-4, 1, -12)] {
        assert_eq!(sheet(&lone(digit, sides)), only(8, 4));
        assert_eq!(no_fit(&lone((5, 9, 2), sides)), 0);
    }
    for sides in [(2, 1, 13), (2, 1, 30), (3, -3, 1), (0, 0, 5), (0, 0, -2_000_000_000_000_000)] {
        assert_eq!(no_fit(&lone(digit, sides)), 0);
    }
    let free = Sheet { worth: 18, counts: vec![count(9, 0, 1, 0)], groups: vec![group(10, 9, 2)] };
    for sides in [(3, -3, 0), (0, 0, 0), (-1_000_000, 1_000_000, 0)] {
        assert_eq!(sheet(&lone(digit, sides)), free);
    }
}

#[test]
fn a_million_twice() {
    let (full, million, most) = ((-1_000_000_000, 1_000_000_000, 1), 1_000_000, 2_000_000_000_000_000);
    for sign in [1, -1] {
        let highest = sheet(&lone(full, (sign * million, sign * million, i64::from(sign) * most)));
        assert_eq!(highest, only(1_000_000_000, 1_000_000_000));
        let lowest = sheet(&lone(full, (sign * million, sign * million, i64::from(-sign) * most)));
        assert_eq!(lowest, only(-1_000_000_000, -1_000_000_000));
    }
    assert_eq!(no_fit(&lone(full, (million, million, most - 1_000_000))), 0);
    // at k = 1,000 of the 2,000 fit-outs both counts are 1
    let tied = |c| made(&[full; 2], &[(1, 1, million, million, c), (0, 1, million, 1 - million, 1)]);
    let wanted = Sheet { worth: 2, counts: vec![count(1, 1, 0, 0), count(1, 1, 0, 0)], groups: vec![group(1, 0, 0)] };
    assert_eq!(sheet(&tied(2_000_000)), wanted);
    assert_eq!(no_fit(&tied(4_000_000)), 0);
}

/// A coefficient 0 joins nothing: the equation is one of the other count's group, or of the left one's where both are 0.
#[test]
fn zeros_between_groups() {
    let with = |equation| made(&[(0, 3, 1), (0, 9, 1)], &[equation]);
    let wanted =
        Sheet { worth: 7, counts: vec![count(3, 0, 1, 0), count(4, 4, 0, 1)], groups: vec![group(4, 3, 1), group(1, 0, 0)] };
    assert_eq!(sheet(&with((0, 1, 0, 2, 8))), wanted);
    assert_eq!(sheet(&with((1, 0, 2, 0, 8))), wanted);
    assert_eq!([no_fit(&with((0, 1, 0, 2, 9))), no_fit(&with((1, 0, 0, 2, 8)))], [1, 0]);
    // 0 = 5 is named by the lowest count of its group, and an earlier group without a fit comes first
    let with = |first, equation| made(&[first, (0, 9, 0), (0, 9, 0)], &[equation, (2, 1, 1, -1, 0)]);
    let digit = (0, 9, 0);
    assert_eq!([no_fit(&with(digit, (2, 0, 0, 0, 5))), no_fit(&with(digit, (0, 2, 0, 0, 5)))], [1, 0]);
    assert_eq!([no_fit(&with(digit, (2, 2, 4, -4, 5))), no_fit(&with((9, 0, 0), (2, 0, 0, 0, 5)))], [1, 0]);
    let wanted = Sheet {
        worth: 0,
        counts: vec![count(9, 0, 1, 0), count(9, 0, 1, 1), count(9, 0, 1, 1)],
        groups: vec![group(10, 9, 0), group(10, 9, 0)],
    };
    assert_eq!(sheet(&with(digit, (2, 0, 0, 0, 0))), wanted);
    // two groups, and so 24 + 16·3 + 16·2 bytes
    assert_eq!(refused(&job::write(&with(digit, (2, 0, 0, 0, 0))), 103), (8, 0));
}

/// c0 + c1 = 5 and an equation on one of them, before and behind.
#[test]
fn one_count_of_a_group() {
    let joined = (0, 1, 1, 1, 5);
    let both = |equation| [[joined, equation], [equation, joined]].map(|ties| made(&[(0, 9, 1), (0, 9, 0)], &ties));
    let wanted = Sheet { worth: 3, counts: vec![count(3, 3, 0, 0), count(2, 2, 0, 0)], groups: vec![group(1, 0, 0)] };
    for equation in [(0, 1, 0, 2, 4), (1, 0, 2, 0, 4), (0, 1, 3, 0, 9), (1, 1, 1, 1, 4), (0, 0, 4, -1, 9)] {
        both(equation).iter().for_each(|job| assert_eq!(sheet(job), wanted));
    }
    let all = Sheet { worth: 5, counts: vec![count(5, 0, 1, 0), count(0, 5, -1, 0)], groups: vec![group(6, 5, 1)] };
    for equation in [(0, 1, 0, 0, 0), (1, 0, 0, 0, 0), (1, 1, 7, -7, 0)] {
        both(equation).iter().for_each(|job| assert_eq!(sheet(job), all));
    }
    // half a card, past a bound of the count, past one of the other
    for equation in [(1, 1, 1, 1, 5), (1, 1, 1, 0, 10), (0, 0, 1, 0, 6), (0, 1, 0, 0, 1)] {
        assert_eq!(both(equation).map(|job| no_fit(&job)), [0; 2]);
    }
}

/// Number, the number that it supersedes, count, low and high.
type Row = (u32, u32, u16, i32, i32);

fn amended(job: &Job, rows: &[Row]) -> Outcome {
    let row = |&(number, supersedes, count, low, high): &Row| Amendment { number, supersedes, count, zero: 0, low, high };
    let bytes = amendments::write(&rows.iter().map(row).collect::<Vec<Amendment>>());
    agree::compared(&job::write(job), &bytes, &[0xA5; 200]).unwrap_or_else(|found| panic!("{found:?}")).0
}

/// Job M with the weight 1 for its count 3, which is 2..5.
fn job_m_and_one() -> Job {
    let mut job = job_m();
    job.counts[3].weight = 1;
    job
}

#[test]
fn amendments_in_force() {
    let worth = |rows: &[Row]| {
        let outcome = amended(&job_m_and_one(), rows);
        (outcome.kind, outcome.worth)
    };
    assert_eq!(worth(&[]), (1, 319));
    assert_eq!(worth(&[(1, 0, 3, 2, 9)]), (1, 323));
    assert_eq!(worth(&[(1, 0, 3, 2, 9), (2, 1, 3, 2, 3)]), (1, 317));
    // the first does not come back
    assert_eq!(worth(&[(7, 0, 3, 2, 9), (8, 7, 3, 5, 2), (9, 8, 3, 2, 3)]), (1, 317));
    assert_eq!(worth(&[(1, 0, 3, 5, 2)]), (2, 0));
    // 11, 176 and 6 of group 0 are one step too far: 8, 128 and 4 are worth 82 less
    assert_eq!(worth(&[(1, 0, 1, 0, 175)]), (1, 237));
    let job = made(&[(9, 0, 1)], &[]);
    assert_eq!((amended(&job, &[]).kind, amended(&job, &[(1, 0, 0, 0, 9)]).worth), (2, 9));
}

#[test]
fn amendments_refused() {
    let refused = |rows: &[Row]| {
        let outcome = amended(&job_m(), rows);
        (outcome.reason, outcome.row)
    };
    let first = (1, 0, 0, 0, 9);
    assert_eq!([refused(&[(0, 0, 0, 0, 9)]), refused(&[(1, 1, 0, 0, 9)]), refused(&[(1, 0, 4, 0, 9)])], [(12, 0); 3]);
    assert_eq!([refused(&[first, (1, 0, 1, 0, 9)]), refused(&[first, (2, 1, 1, 0, 9)])], [(12, 1); 2]);
    assert_eq!([refused(&[first, (2, 0, 0, 0, 9)]), refused(&[first, (2, 3, 0, 0, 9)])], [(13, 1), (12, 1)]);
    assert_eq!(refused(&[first, (2, 1, 0, 0, 9), (3, 1, 0, 0, 9)]), (13, 2));
    assert_eq!(refused(&[first, (2, 0, 0, 0, 9), (3, 2, 0, 0, 9)]), (13, 2));
    let past = 1_000_000_001;
    assert_eq!([refused(&[(1, 0, 0, 0, past)]), refused(&[(1, 0, 0, -past, 9), (2, 1, 0, 0, 9)])], [(5, 0); 2]);
    assert_eq!(refused(&[(1, 0, 0, 0, past), (2, 0, 0, 0, 9)]), (13, 1));
    let chain = |many: u32| -> Vec<Row> { (1..=many).map(|number| (number, number - 1, 0, 0, 20)).collect() };
    assert_eq!((amended(&job_m(), &chain(512)).worth, refused(&chain(513))), (314, (11, 0)));
    let bytes = |job: &[u8], amendments: &[u8]| {
        let outcome = agree::compared(job, amendments, &[]).unwrap_or_else(|found| panic!("{found:?}")).0;
        (outcome.reason, outcome.row)
    };
    // in no area at all: the length, then a zero field, then reason 8; the job's own reasons before them
    let mut zero_field = [1, 0, 0, 0, 0, 0, 0, 0, 0, 0, 0, 128, 0, 0, 0, 0, 9, 0, 0, 0, 0];
    let job = job::write(&job_m());
    assert_eq!([bytes(&job, &zero_field), bytes(&job, &zero_field[..20])], [(11, 0); 2]);
    zero_field[11] = 0;
    assert_eq!([bytes(&job, &zero_field[..20]), bytes(&job[..23], &zero_field)], [(8, 0), (1, 0)]);
}

/// In a build for tests a number that does not fit i128 stops the plain program.
#[test]
fn many_jobs_agree() {
    let mut out = Vec::new();
    let agreed = agree::agree(&mut out, 112, 2_000, 0).expect("a list can be written to");
    assert!(agreed, "{}", String::from_utf8_lossy(&out));
}
