//! Amendments worked out by hand: what is printed, what is refused, and what stands in the areas.

use super::{amended, rows, write, Amendment, MOST_AMENDMENTS};
use crate::archive;
use crate::call::call;
use crate::job::{self, Count, Equation, Job, MOST_NUMBER};
use crate::plan::{plan, Outcome};
use crate::print::print;

/// Number, the number that it supersedes, count, low and high.
type Row = (u32, u32, usize, i64, i64);

fn amendments(rows: &[Row]) -> Vec<Amendment> {
    let row = |&(number, supersedes, count, low, high): &Row| Amendment { number, supersedes, count, zero: 0, low, high };
    rows.iter().map(row).collect()
}

/// Counts 0 and 1 with these bounds and the weights 1 and 2, and c0 + c1 = 6.
fn job(bounds: [(i64, i64); 2]) -> Vec<u8> {
    let counts = bounds.iter().zip([1, 2]).map(|(&(low, high), weight)| Count { low, high, weight }).collect();
    job::write(&Job { counts, equations: vec![Equation { left: 0, right: 1, a: 1, b: 1, c: 6 }] })
}

fn digits() -> Vec<u8> {
    job([(0, 9); 2])
}

/// The plan of that job in which count 0 goes from `base` on for so many fits. Count 1 is worth more, so that the first is the best.
fn planned(base: i64, fits: i64) -> String {
    let (other, step) = (6 - base, i64::from(fits > 1));
    format!(
        "worth {}\ncount 0 number {base} base {base} step {step} group 0\ncount 1 number {other} base {other} step {} group 0\n\
         group 0 fits {fits} at 0 gain {}\n",
        base + 2 * other,
        -step,
        -step
    )
}

fn printed(job: &[u8], rows: &[Row]) -> String {
    print(&plan(job, &write(&amendments(rows))))
}

const NO_FIT: &str = "no fit at count 0\n";

/// The reason and the row for these bytes of amendments; (0, 0) if they are taken.
fn answer(job: &[u8], bytes: &[u8]) -> (u8, usize) {
    amended(job, bytes).map_or_else(|refusal| (refusal.reason, refusal.row), |_| (0, 0))
}

fn refused(rows: &[Row]) -> (u8, usize) {
    answer(&digits(), &write(&amendments(rows)))
}

/// The same with zero fields that are not zero in some rows.
fn refused_with_zero_fields(rows: &[Row], fields: &[(usize, u16)]) -> (u8, usize) {
    let mut all = amendments(rows);
    fields.iter().for_each(|&(row, field)| all[row].zero = field);
    answer(&digits(), &write(&all))
}

/// Lawful ones of one count, each of which supersedes the one before it; the last brings 2..4.
fn chain(many: u32) -> Vec<Row> {
    (1..=many).map(|number| (number, number - 1, 0, 2, if number == many { 4 } else { 1 })).collect()
}

#[test]
fn bytes() {
    let wanted = [1, 2, 0, 0, 255, 255, 255, 255, 3, 1, 0, 128, 0, 54, 101, 196, 255, 255, 255, 255];
    let one = [Amendment { number: 513, supersedes: u32::MAX, count: 259, zero: 32_768, low: -1_000_000_000, high: -1 }];
    assert_eq!(write(&one), wanted);
    assert_eq!(rows(&wanted), one);
}

/// The bounds are those of the amendment, whether narrower or wider, and the weights stay.
#[test]
fn bounds_are_replaced() {
    assert_eq!(printed(&digits(), &[]), planned(0, 7));
    assert_eq!(printed(&digits(), &[(1, 0, 0, 0, 9)]), planned(0, 7));
    assert_eq!(printed(&digits(), &[(1, 0, 0, 2, 4)]), planned(2, 3));
    assert_eq!(printed(&digits(), &[(1, 0, 1, 2, 4)]), planned(2, 3));
    assert_eq!(printed(&digits(), &[(1, 0, 0, 5, 5)]), planned(5, 1));
    // count 1 is at 9 where count 0 is at -3, and at -14 where it is at 20
    assert_eq!(printed(&digits(), &[(1, 0, 0, -20, 20)]), planned(-3, 10));
    assert_eq!(printed(&digits(), &[(1, 0, 0, -20, 20), (2, 0, 1, -14, 26)]), planned(-20, 41));
    let full = (-MOST_NUMBER, MOST_NUMBER);
    let widest = [(1, 0, 0, full.0, full.1), (2, 0, 1, full.0, full.1)];
    assert_eq!(printed(&digits(), &widest), planned(6 - MOST_NUMBER, 2 * MOST_NUMBER - 5));
}

#[test]
fn numbers_may_have_gaps() {
    assert_eq!(printed(&digits(), &[(7, 0, 0, 9, 0), (9, 7, 0, 2, 4)]), planned(2, 3));
    let highest = [(2_147_483_647, 0, 0, 9, 0), (2_147_483_648, 0, 1, 0, 9), (u32::MAX, 2_147_483_647, 0, 2, 4)];
    assert_eq!(printed(&digits(), &highest), planned(2, 3));
}

/// The third supersedes the second, which supersedes the first: the first does not come back, and the third alone is in force.
#[test]
fn no_revival() {
    assert_eq!(printed(&digits(), &[(1, 0, 0, 5, 6), (2, 1, 0, 9, 0), (3, 2, 0, 2, 4)]), planned(2, 3));
    // with amendments of another count between them
    let between = [(1, 0, 0, 5, 6), (2, 0, 1, 9, 0), (3, 1, 0, 9, 0), (4, 2, 1, 1, 5), (5, 3, 0, 2, 4)];
    assert_eq!(printed(&digits(), &between), planned(2, 3));
}

/// The row is that of the later one in force, and of the first such.
#[test]
fn two_in_force() {
    let (first, free) = ((1, 0, 0, 0, 9), (0, 9));
    let next = |number, supersedes| (number, supersedes, 0, free.0, free.1);
    assert_eq!(refused(&[first, next(2, 0)]), (13, 1));
    assert_eq!(refused(&[first, next(2, 1), next(3, 1)]), (13, 2));
    // the second is superseded, and so is not in force; the first is
    assert_eq!(refused(&[first, next(2, 0), next(3, 2)]), (13, 2));
    assert_eq!(refused(&[first, next(2, 0), next(3, 1)]), (13, 2));
    assert_eq!(refused(&[first, next(2, 0), next(3, 0)]), (13, 1));
    assert_eq!(refused(&[first, next(2, 1), next(3, 2), next(4, 2), next(5, 3)]), (13, 4));
    // count 1 has its second before count 0 has
    assert_eq!(refused(&[first, (2, 0, 1, 0, 9), (3, 0, 1, 0, 9), next(4, 0)]), (13, 2));
    assert_eq!(refused(&[first, (2, 0, 1, 0, 9)]), (0, 0));
}

#[test]
fn superseded_is_an_earlier_one_for_the_count() {
    let first = (1, 0, 0, 0, 9);
    assert_eq!(refused(&[(1, 1, 0, 0, 9)]), (12, 0));
    assert_eq!(refused(&[first, (2, 2, 0, 0, 9)]), (12, 1));
    assert_eq!(refused(&[(1, 2, 0, 0, 9), (2, 0, 0, 0, 9)]), (12, 0));
    assert_eq!(refused(&[first, (2, 1, 1, 0, 9)]), (12, 1));
    assert_eq!(refused(&[(5, 0, 0, 0, 9), (7, 6, 0, 0, 9)]), (12, 1));
    assert_eq!(refused(&[(5, 0, 0, 0, 9), (7, 4, 0, 0, 9)]), (12, 1));
    assert_eq!(refused(&[(5, u32::MAX, 0, 0, 9)]), (12, 0));
    // not the row of one, but its number
    assert_eq!(refused(&[(5, 0, 0, 0, 9), (6, 1, 0, 0, 9)]), (12, 1));
}

#[test]
fn numbers_rise_from_one() {
    let with = |numbers: &[u32]| {
        let rows: Vec<Row> = numbers.iter().enumerate().map(|(count, &number)| (number, 0, count % 2, 0, 9)).collect();
        refused(&rows)
    };
    assert_eq!([with(&[1, 2]), with(&[5, 9]), with(&[u32::MAX - 1, u32::MAX])], [(0, 0); 3]);
    assert_eq!([with(&[0]), with(&[0, 1]), with(&[0, 0])], [(12, 0); 3]);
    assert_eq!([with(&[1, 0]), with(&[1, 1]), with(&[5, 4]), with(&[u32::MAX, 1])], [(12, 1); 4]);
    assert_eq!([with(&[5, 7, 6]), with(&[5, 7, 5]), with(&[5, 7, 7]), with(&[5, 7, 0])], [(12, 2); 4]);
    assert_eq!(with(&[2_147_483_648, 2_147_483_647]), (12, 1));
}

#[test]
fn counts_are_below_n() {
    assert_eq!(refused(&[(1, 0, 2, 0, 9)]), (12, 0));
    assert_eq!(refused(&[(1, 0, 1, 0, 9), (2, 0, 65_535, 0, 9)]), (12, 1));
    // a later one for the same count that is not there
    assert_eq!(refused(&[(1, 0, 2, 0, 9), (2, 1, 2, 0, 9)]), (12, 0));
    let none = job::write(&Job::default());
    assert_eq!(printed(&none, &[]), "worth 0\n");
    assert_eq!(printed(&none, &[(1, 0, 0, 0, 9)]), "refused 12 row 0\n");
}

#[test]
fn lengths_and_numbers_of_amendments() {
    let bytes = write(&amendments(&chain(2)));
    for length in [1, 19, 21, 39] {
        assert_eq!(answer(&digits(), &bytes[..length]), (11, 0));
    }
    assert_eq!([answer(&digits(), &[]), answer(&digits(), &bytes[..20]), answer(&digits(), &bytes)], [(0, 0); 3]);
    let most = MOST_AMENDMENTS as u32;
    assert_eq!(printed(&digits(), &chain(most)), planned(2, 3));
    assert_eq!(printed(&digits(), &chain(most + 1)), "refused 11 row 0\n");
    assert_eq!(answer(&digits(), &[write(&amendments(&chain(most))), vec![0]].concat()), (11, 0));
    // in 16 bits these would be none, and one
    assert_eq!([answer(&digits(), &[0; 20 * 65_536]), answer(&digits(), &[1; 20 * 65_537])], [(11, 0); 2]);
}

/// The length and the number of amendments come before any zero field, and a zero field before all else.
#[test]
fn zero_fields() {
    for field in [1, 255, 256, 32_768] {
        assert_eq!(refused_with_zero_fields(&chain(4), &[(0, field)]), (11, 0));
        assert_eq!(refused_with_zero_fields(&chain(4), &[(3, field)]), (11, 3));
        assert_eq!(refused_with_zero_fields(&chain(4), &[(3, field), (1, 1)]), (11, 1));
        assert_eq!(refused_with_zero_fields(&chain(513), &[(3, field)]), (11, 0));
    }
    let mut row_0_of_no_count = chain(4);
    row_0_of_no_count[0].2 = 2;
    assert_eq!(refused(&row_0_of_no_count), (12, 0));
    assert_eq!(refused_with_zero_fields(&row_0_of_no_count, &[(3, 1)]), (11, 3));
    let mut bytes = write(&amendments(&chain(2)));
    bytes[30] = 1;
    assert_eq!(answer(&digits(), &bytes), (11, 1));
    assert_eq!(answer(&digits(), &[bytes, vec![0; 5]].concat()), (11, 0));
}

/// Reason 5 with the row of the amendment, in force or not.
#[test]
fn ranges() {
    for sign in [1, -1] {
        let (limit, past) = (sign * MOST_NUMBER, sign * (MOST_NUMBER + 1));
        assert_eq!([refused(&[(1, 0, 0, limit, 9)]), refused(&[(1, 0, 0, 0, limit)])], [(0, 0); 2]);
        assert_eq!([refused(&[(1, 0, 0, past, 9)]), refused(&[(1, 0, 0, 0, past)])], [(5, 0); 2]);
        assert_eq!(refused(&[(1, 0, 1, 0, 9), (2, 0, 0, 0, past)]), (5, 1));
        assert_eq!(refused(&[(1, 0, 0, past, 9), (2, 1, 0, 0, 9)]), (5, 0));
        assert_eq!(refused(&[(1, 0, 1, 0, 9), (2, 0, 0, 0, past), (3, 2, 0, 0, 9)]), (5, 1));
        // 12 and 13 of later rows come first
        assert_eq!(refused(&[(1, 0, 0, past, 9), (2, 0, 0, 0, 9)]), (13, 1));
        assert_eq!(refused(&[(1, 0, 0, past, 9), (2, 0, 2, 0, 9)]), (12, 1));
        assert_eq!(refused_with_zero_fields(&[(1, 0, 0, past, 9), (2, 1, 0, 0, 9)], &[(1, 1)]), (11, 1));
    }
    assert_eq!(refused(&[(1, 0, 0, i32::MIN.into(), i32::MAX.into())]), (5, 0));
}

/// 12 of a later row comes before 13 of an earlier one.
#[test]
fn twelve_before_thirteen() {
    let (first, second) = ((1, 0, 0, 0, 9), (2, 0, 0, 0, 9));
    assert_eq!(refused(&[first, second, (3, 0, 2, 0, 9)]), (12, 2));
    assert_eq!(refused(&[first, second, (2, 0, 1, 0, 9)]), (12, 2));
}

#[test]
fn low_above_high() {
    assert_eq!(printed(&digits(), &[(1, 0, 0, 4, 3)]), NO_FIT);
    // the lowest count of the group is reported
    assert_eq!(printed(&digits(), &[(1, 0, 1, MOST_NUMBER, -MOST_NUMBER)]), NO_FIT);
    assert_eq!(printed(&digits(), &[(1, 0, 0, 4, 3), (2, 1, 0, 2, 4)]), planned(2, 3));
}

#[test]
fn fits_made_and_unmade() {
    assert_eq!(printed(&job([(9, 0), (0, 9)]), &[]), NO_FIT);
    assert_eq!(printed(&job([(9, 0), (0, 9)]), &[(1, 0, 0, 0, 9)]), planned(0, 7));
    assert_eq!(printed(&job([(9, 0), (0, 9)]), &[(1, 0, 1, 0, 9)]), NO_FIT);
    assert_eq!(printed(&job([(7, 9), (7, 9)]), &[]), NO_FIT);
    assert_eq!(printed(&job([(7, 9), (7, 9)]), &[(1, 0, 1, -2, -1)]), planned(7, 2));
    assert_eq!(printed(&digits(), &[(1, 0, 0, 7, 9)]), NO_FIT);
    assert_eq!(printed(&digits(), &[(1, 0, 0, 7, 9), (2, 0, 1, -3, -2)]), planned(8, 2));
}

/// The outcome's kind, reason and row, and whether the answer area and the map area were written to.
fn called(job: &[u8], amendments: &[u8], area: usize, map: usize) -> (char, u8, usize, bool, bool) {
    let (mut area, mut map) = (vec![7; area], vec![7; map]);
    let (kind, reason, row) = match call(job, amendments, &mut area, Some(&mut map)) {
        Outcome::Planned(_) => ('p', 0, 0),
        Outcome::NoFit(_) => ('n', 0, 0),
        Outcome::Refused(refusal) => ('r', refusal.reason, refusal.row),
    };
    let written = |area: &[u8]| area.iter().any(|&byte| byte != 7);
    (kind, reason, row, written(&area), written(&map))
}

/// The job's own reasons come before those of amendments, and those of the areas behind them. One group: 72 and 36 bytes.
#[test]
fn places_in_the_table() {
    let (good, none) = (write(&amendments(&[(1, 0, 0, 2, 4)])), write(&amendments(&[(1, 0, 0, 4, 3)])));
    assert_eq!(called(&digits(), &good, 72, 36), ('p', 0, 0, true, true));
    assert_eq!(called(&digits(), &none, 72, 36), ('n', 0, 0, false, true));
    assert_eq!(called(&digits(), &good, 71, 35), ('r', 8, 0, false, false));
    assert_eq!(called(&digits(), &good, 72, 35), ('r', 10, 0, false, false));
    for (rows, reason, row) in [
        (&[(0, 0, 0, 0, 9)][..], 12, 0),
        (&[(1, 0, 0, 0, 9), (2, 0, 0, 0, 9)], 13, 1),
        (&[(1, 0, 0, 0, 2_000_000_000)], 5, 0),
    ] {
        let bytes = write(&amendments(rows));
        for (area, map) in [(72, 36), (0, 36), (72, 0), (0, 0)] {
            assert_eq!(called(&digits(), &bytes, area, map), ('r', reason, row, false, false));
        }
    }
    let odd = [0; 19];
    assert_eq!(called(&digits(), &odd, 0, 0), ('r', 11, 0, false, false));
    let with = |change: &dyn Fn(&mut Vec<u8>)| {
        let mut bytes = digits();
        change(&mut bytes);
        called(&bytes, &odd, 0, 0)
    };
    assert_eq!(with(&|job| job.truncate(23)), ('r', 1, 0, false, false));
    assert_eq!(with(&|job| job[3] = b'2'), ('r', 2, 0, false, false));
    assert_eq!(with(&|job| job[5] = 255), ('r', 3, 0, false, false));
    assert_eq!(with(&|job| job.push(0)), ('r', 4, 0, false, false));
    assert_eq!(with(&|job| job[39] = 64), ('r', 5, 1, false, false)); // the low of count 1 is 1,073,741,824
    assert_eq!(with(&|job| job[48] = 2), ('r', 6, 0, false, false));
    assert_eq!(with(&|job| job[54] = 16), ('r', 7, 0, false, false)); // a is 1,048,577
}

/// Every list of up to three amendments with numbers up to 3, for counts 0 to 2 of a job of two. What is taken is taken by a rule of its
/// own: the numbers rise, the counts are there, and each supersedes the one before it for its count; then the last of each count is in
/// force. The archive's check gives the same reason and row.
#[test]
fn every_short_list() {
    let (numbers, counts) = (0..=3, 0..=2);
    let one: Vec<Row> = numbers
        .clone()
        .flat_map(|number| numbers.clone().map(move |supersedes| (number, supersedes)))
        .flat_map(|(number, supersedes)| counts.clone().map(move |count| (number, supersedes, count, number.into(), 9)))
        .collect();
    let mut lists: Vec<Vec<Row>> = vec![Vec::new()];
    let (mut taken, mut tried) = (0, 0);
    for _ in 0..=3 {
        for list in &lists {
            tried += 1;
            taken += u32::from(try_list(list));
        }
        lists = lists.iter().flat_map(|list| one.iter().map(|&row| [&list[..], &[row]].concat())).collect();
    }
    // none; three numbers and two counts; of two numbers that rise and two counts three, four ways; one way to take all three, eight ways
    assert_eq!((tried, taken), (1 + 48 + 48 * 48 + 48 * 48 * 48, 1 + 6 + 12 + 8));
}

/// Whether the list is taken.
fn try_list(list: &[Row]) -> bool {
    let bytes = write(&amendments(list));
    let before = |row: usize| list[..row].iter().rev().find(|other| other.2 == list[row].2).map_or(0, |other| other.0);
    let rises = (0..list.len()).all(|row| list[row].0 > row.checked_sub(1).map_or(0, |row| list[row].0));
    let lawful = rises && (0..list.len()).all(|row| list[row].2 < 2 && list[row].1 == before(row));
    let answer = amended(&digits(), &bytes);
    assert_eq!(answer.is_ok(), lawful, "{list:?}");
    let checked = archive::check_amendments(Some(&digits()), Some(&bytes));
    match answer {
        Ok(job) => {
            let low = |count| list.iter().rev().find(|row| row.2 == count).map_or(0, |row| row.3);
            assert_eq!([0, 1].map(|count| job.counts[count].low), [low(0), low(1)], "{list:?}");
            assert_eq!((checked.reason, checked.row), (0, 0), "{list:?}");
        }
        Err(refusal) => assert_eq!((checked.reason, checked.row), (refusal.reason.into(), refusal.row as u32), "{list:?}"),
    }
    lawful
}
