//! Amendments that break rules at chosen places of the table.

use super::{write, Amendment, MOST_AMENDMENTS, ROW};
use crate::job::MOST_NUMBER;
use crate::random::Random;

#[derive(Clone, Copy, Debug, PartialEq, Eq)]
enum Fault {
    Length,
    TooMany,
    ZeroField,
    NumberZero,
    EqualNumber,
    FallingNumber,
    AbsentCount,
    SupersedesItself,
    SupersedesLater,
    SupersedesOtherCount,
    SupersedesUnknown,
    /// none, where there is one before it for its count
    SupersedesNone,
    /// one that is superseded already
    SupersedesAgain,
    Range,
}

/// With how often each is drawn. The later ones are more frequent, since an earlier one hides them.
const SHARES: [(Fault, usize); 14] = [
    (Fault::Length, 1),
    (Fault::TooMany, 1),
    (Fault::ZeroField, 2),
    (Fault::NumberZero, 1),
    (Fault::EqualNumber, 1),
    (Fault::FallingNumber, 1),
    (Fault::AbsentCount, 1),
    (Fault::SupersedesItself, 1),
    (Fault::SupersedesLater, 1),
    (Fault::SupersedesOtherCount, 1),
    (Fault::SupersedesUnknown, 1),
    (Fault::SupersedesNone, 3),
    (Fault::SupersedesAgain, 3),
    (Fault::Range, 4),
];

/// The most rows, where they are too many: that and one less are 1 and 0 in 16 bits.
pub const MOST_ROWS: usize = 65_537;

/// The bytes of amendments of a job of n counts, with up to three faults, so that the order of the table counts; sometimes a bit somewhere
/// is turned round.
pub fn spoiled(random: &mut Random, mut all: Vec<Amendment>, n: usize) -> Vec<u8> {
    if all.is_empty() {
        all.push(Amendment { number: 1, supersedes: 0, count: 0, zero: 0, low: 0, high: 9 });
    }
    let possible = SHARES.iter().filter(|(fault, _)| (0..all.len()).any(|row| can_have(&all, row, *fault)));
    let possible: Vec<Fault> = possible.flat_map(|&(fault, times)| vec![fault; times]).collect();
    let faults: Vec<Fault> = (0..random.pick(&[1, 1, 2, 3])).map(|_| random.pick(&possible)).collect();
    let mut bytes = broken(random, all, &faults, n);
    if random.chance(15) {
        let at = random.index(bytes.len());
        bytes[at] ^= 1 << random.index(8);
    }
    bytes
}

/// The bytes with each of these faults, as far as there still is a row that can have it.
fn broken(random: &mut Random, mut all: Vec<Amendment>, faults: &[Fault], n: usize) -> Vec<u8> {
    for &fault in faults {
        if let Some(row) = some_row(random, &all, fault) {
            all[row] = with_fault(random, &all, row, fault, n);
        }
    }
    if faults.contains(&Fault::TooMany) {
        lengthen(random, &mut all);
    }
    let mut bytes = write(&all);
    if faults.contains(&Fault::Length) {
        let rest = 1 + random.index(ROW - 1);
        bytes.resize(bytes.len() - random.pick(&[0, ROW]) + rest, 0);
    }
    bytes
}

/// Of the rows that can have the fault the first, the last or any.
fn some_row(random: &mut Random, all: &[Amendment], fault: Fault) -> Option<usize> {
    let rows: Vec<usize> = (0..all.len()).filter(|&row| can_have(all, row, fault)).collect();
    let (first, last) = (*rows.first()?, *rows.last()?);
    let any = random.pick(&rows);
    Some(random.pick(&[first, last, any]))
}

fn can_have(all: &[Amendment], row: usize, fault: Fault) -> bool {
    match fault {
        Fault::EqualNumber | Fault::FallingNumber => row > 0,
        Fault::SupersedesLater => row + 1 < all.len(),
        Fault::SupersedesOtherCount => !of_other_counts(all, row).is_empty(),
        Fault::SupersedesNone => all[row].supersedes != 0,
        Fault::SupersedesAgain => !superseded(all, row).is_empty(),
        _ => true,
    }
}

/// The amendment in that row, with the fault; those of the whole bytes are none of its own.
fn with_fault(random: &mut Random, all: &[Amendment], row: usize, fault: Fault, n: usize) -> Amendment {
    let mut this = all[row].clone();
    match fault {
        Fault::Length | Fault::TooMany => (),
        Fault::ZeroField => this.zero = random.pick(&[1, 255, 256, 32_768, 65_535]),
        Fault::NumberZero => this.number = 0,
        Fault::EqualNumber => this.number = all[row - 1].number,
        Fault::FallingNumber => {
            this.number = random.pick(&[0, all[row - 1].number / 2, all[row - 1].number.saturating_sub(1)])
        }
        Fault::AbsentCount => this.count = random.pick(&[n, n + 1, 256, 65_535]),
        Fault::SupersedesItself => this.supersedes = this.number,
        Fault::SupersedesLater => this.supersedes = all[row + 1 + random.index(all.len() - row - 1)].number,
        Fault::SupersedesOtherCount => this.supersedes = random.pick(&of_other_counts(all, row)),
        Fault::SupersedesUnknown => this.supersedes = unknown(random, all, this.number),
        Fault::SupersedesNone => this.supersedes = 0,
        Fault::SupersedesAgain => this.supersedes = random.pick(&superseded(all, row)),
        Fault::Range if random.chance(50) => this.low = past(random),
        Fault::Range => this.high = past(random),
    }
    this
}

/// The numbers of those before it that are for other counts.
fn of_other_counts(all: &[Amendment], row: usize) -> Vec<u32> {
    let others = all[..row].iter().filter(|other| other.count != all[row].count);
    others.map(|other| other.number).filter(|&number| number != 0).collect()
}

/// The numbers that those before it for its count supersede.
fn superseded(all: &[Amendment], row: usize) -> Vec<u32> {
    let same = all[..row].iter().filter(|other| other.count == all[row].count);
    same.map(|other| other.supersedes).filter(|&number| number != 0).collect()
}

/// A number that none of them has: next to this one, the highest that there is, or any.
fn unknown(random: &mut Random, all: &[Amendment], number: u32) -> u32 {
    loop {
        let any = random.next() as u32;
        let unknown = random.pick(&[number.wrapping_sub(1), number.wrapping_add(1), u32::MAX, any]);
        if unknown != 0 && all.iter().all(|other| other.number != unknown) {
            return unknown;
        }
    }
}

/// A bound just past the limit, or far past it.
fn past(random: &mut Random) -> i64 {
    let near = random.sign() * random.between(MOST_NUMBER + 1, MOST_NUMBER + 2);
    random.pick(&[near, near, i32::MAX.into(), i32::MIN.into()])
}

/// One more than there can be, or still more; each further one supersedes the one before it.
fn lengthen(random: &mut Random, all: &mut Vec<Amendment>) {
    let (near, far) =
        (random.pick(&[MOST_AMENDMENTS + 1, MOST_AMENDMENTS + 2, 700]), random.pick(&[MOST_ROWS - 1, MOST_ROWS]));
    let rows = if random.chance(10) { far } else { near };
    while all.len() < rows {
        let last = all[all.len() - 1].clone();
        all.push(Amendment { number: last.number.wrapping_add(1), supersedes: last.number, ..last });
    }
}

#[cfg(test)]
mod tests {
    use super::*;
    use crate::amendments::{drawn, read, REASONS};
    use crate::job::{Count, Job};

    fn reason_of(fault: Fault) -> u8 {
        match fault {
            Fault::Length | Fault::TooMany | Fault::ZeroField => 11,
            Fault::SupersedesNone | Fault::SupersedesAgain => 13,
            Fault::Range => 5,
            _ => 12,
        }
    }

    fn place(reason: u8) -> usize {
        REASONS.iter().position(|&other| other == reason).expect("a reason of amendments")
    }

    /// Amendments in which some row can have each fault.
    fn lawful(random: &mut Random, job: &Job) -> Vec<Amendment> {
        loop {
            let all = drawn::lawful(random, job, 12);
            let has = |fault| (0..all.len()).any(|row| can_have(&all, row, fault));
            if SHARES.iter().all(|&(fault, _)| has(fault)) {
                return all;
            }
        }
    }

    #[test]
    fn first_place_counts() {
        let random = &mut Random::new(8, 0);
        let job = Job { counts: vec![Count { low: 0, high: 9, weight: 0 }; 4], equations: Vec::new() };
        for (first, second) in SHARES.iter().flat_map(|first| SHARES.map(|second| (first.0, second.0))) {
            let expected = reason_of(first);
            if place(expected) > place(reason_of(second)) {
                continue;
            }
            for _ in 0..30 {
                let all = lawful(random, &job);
                let bytes = broken(random, all.clone(), &[second, first], 4);
                let refusal = read(&bytes, 4).expect_err("a fault");
                assert_eq!(refusal.reason, expected, "{first:?} and {second:?} in {all:?}");
            }
        }
    }
}
