//! Jobs with ties that join nothing (document 02, #102), worked out by hand: what is printed, and the whole map.

use crate::call::call;
use crate::job::{self, Count, Equation, Job};
use crate::plan::Outcome;
use crate::print::print;
use crate::search::search;
use crate::sheet;

const MILLION: i64 = 1_000_000;
const FULL: (i64, i64, i64) = (-1_000 * MILLION, 1_000 * MILLION, MILLION);

/// The bounds and weights of counts 0, 1, .. and the equations: left, right, a, b, c.
fn job(counts: &[(i64, i64, i64)], equations: &[(usize, usize, i64, i64, i64)]) -> Job {
    Job {
        counts: counts.iter().map(|&(low, high, weight)| Count { low, high, weight }).collect(),
        equations: equations.iter().map(|&(left, right, a, b, c)| Equation { left, right, a, b, c }).collect(),
    }
}

/// What is printed, and of the map the groups of the counts with how many equations name them, and those of the equations with their
/// kinds. Both areas are just long enough; with either a byte shorter the call is refused.
fn expect(job: &Job, printed: &str, counts: &[(usize, usize)], equations: &[(usize, usize)]) {
    let groups = counts.iter().map(|row| row.0 + 1).max().unwrap_or(0);
    let map = map_bytes(groups, counts, equations);
    let area = vec![7; 24 + 16 * counts.len() + 16 * groups];
    let (outcome, given_area, given_map) = after(job, area.len(), map.len());
    assert_eq!(print(&outcome), printed, "{job:?}");
    let wanted = if let Outcome::Planned(sheet) = &outcome { sheet::bytes(sheet) } else { area.clone() };
    assert_eq!((given_area, given_map), (wanted, map.clone()), "{job:?}");
    assert_eq!(print(&after(job, area.len() - 1, map.len()).0), "refused 8 row 0\n");
    assert_eq!(print(&after(job, area.len(), map.len() - 1).0), "refused 10 row 0\n");
    assert!(search(job, 3_000).is_none_or(|found| found == outcome), "{job:?}");
}

/// The outcome with areas of these lengths that are full of 7, and what stands in them then.
fn after(job: &Job, area: usize, map: usize) -> (Outcome, Vec<u8>, Vec<u8>) {
    let (mut area, mut map) = (vec![7; area], vec![7; map]);
    let outcome = call(&job::write(job), &[], &mut area, Some(&mut map));
    (outcome, area, map)
}

fn map_bytes(groups: usize, counts: &[(usize, usize)], equations: &[(usize, usize)]) -> Vec<u8> {
    let two = |&(x, y): &(usize, usize)| [x as u8, (x >> 8) as u8, y as u8, (y >> 8) as u8];
    let (n, m) = (counts.len(), equations.len());
    let header = [(n, m), (24, 0), (24 + 4 * n, 0), (groups, 0), (0, 0)];
    let rows = header.iter().chain(counts).chain(equations);
    [&b"MAP1"[..], rows.map(two).collect::<Vec<[u8; 4]>>().as_flattened()].concat()
}

/// One count, which one equation of kind 3 names.
fn expect_lone(bounds: (i64, i64, i64), (a, b, c): (i64, i64, i64), printed: &str) {
    expect(&job(&[bounds], &[(0, 0, a, b, c)]), printed, &[(0, 1)], &[(0, 3)]);
}

fn planned_lone(worth: i64, number: i64) -> String {
    format!("worth {worth}\ncount 0 number {number} base {number} step 0 group 0\ngroup 0 fits 1 at 0 gain 0\n")
}

#[test]
fn three_times_this_is_twelve() {
    expect_lone((0, 9, 2), (3, 0, 12), &planned_lone(8, 4));
    expect_lone((0, 9, 2), (0, 3, 12), &planned_lone(8, 4));
    expect_lone((0, 9, 2), (-3, 0, -12), &planned_lone(8, 4));
    expect_lone((0, 9, 2), (3, 0, 13), "no fit at count 0\n");
    expect_lone((0, 3, 2), (3, 0, 12), "no fit at count 0\n");
    expect_lone((5, 9, 2), (3, 0, 12), "no fit at count 0\n");
    expect_lone((9, 0, 2), (3, 0, 12), "no fit at count 0\n");
    // beside a count with coefficient 0, which stays free
    let wanted = "worth 13
count 0 number 4 base 4 step 0 group 0
count 1 number 5 base 0 step 1 group 1
group 0 fits 1 at 0 gain 0
group 1 fits 6 at 5 gain 1
";
    let counts = [(0, 9, 2), (0, 5, 1)];
    expect(&job(&counts, &[(0, 1, 3, 0, 12)]), wanted, &[(0, 1), (1, 1)], &[(0, 3)]);
    expect(&job(&counts, &[(1, 0, 0, 3, 12)]), wanted, &[(0, 1), (1, 1)], &[(0, 3)]);
}

#[test]
fn nothing_is_nothing() {
    let free = "worth 0\ncount 0 number 0 base 0 step 1 group 0\ngroup 0 fits 4 at 0 gain -1\n";
    expect_lone((0, 3, -1), (0, 0, 0), free);
    expect_lone((0, 3, -1), (0, 0, 5), "no fit at count 0\n");
    expect_lone((3, 0, -1), (0, 0, 0), "no fit at count 0\n");
    let most = 2_000_000_000 * MILLION;
    expect_lone((0, 3, -1), (0, 0, most), "no fit at count 0\n");
    expect_lone((0, 3, -1), (0, 0, -most), "no fit at count 0\n");
}

/// The same count with the sum 0: all its numbers stay, or none.
#[test]
fn three_less_three() {
    let free = "worth 2\ncount 0 number 2 base -2 step 1 group 0\ngroup 0 fits 5 at 4 gain 1\n";
    expect_lone((-2, 2, 1), (3, -3, 0), free);
    expect_lone((-2, 2, 1), (3, -3, 1), "no fit at count 0\n");
    expect_lone((-2, 2, 1), (-MILLION, MILLION, 0), free);
    expect_lone((-2, 2, 1), (-MILLION, MILLION, -6), "no fit at count 0\n");
}

#[test]
fn two_and_one_are_three() {
    expect_lone((0, 9, -5), (2, 1, 12), &planned_lone(-20, 4));
    expect_lone((0, 9, -5), (2, 1, 13), "no fit at count 0\n");
    expect_lone((0, 9, -5), (-1, 4, 12), &planned_lone(-20, 4));
    expect_lone((-9, 9, -5), (2, -5, 12), &planned_lone(20, -4));
    // not 2·c0 = 12, and not c0 = 12
    expect_lone((5, 9, -5), (2, 1, 12), "no fit at count 0\n");
    expect_lone((10, 19, -5), (2, 1, 12), "no fit at count 0\n");
}

/// The sum is 2,000,000 in size, and the right-hand side as large as it can be.
#[test]
fn a_million_twice() {
    let most = 2_000_000_000 * MILLION;
    let (high, low) =
        (planned_lone(1_000_000_000 * MILLION, 1_000 * MILLION), planned_lone(-1_000_000_000 * MILLION, -1_000 * MILLION));
    expect_lone(FULL, (MILLION, MILLION, most), &high);
    expect_lone(FULL, (MILLION, MILLION, -most), &low);
    expect_lone(FULL, (-MILLION, -MILLION, most), &low);
    expect_lone(FULL, (-MILLION, -MILLION, -most), &high);
    expect_lone(FULL, (MILLION, MILLION, most - 1), "no fit at count 0\n");
    expect_lone(FULL, (MILLION, MILLION, most - MILLION), "no fit at count 0\n");
    // 999,999,999, whose worth is a million times that
    expect_lone(FULL, (MILLION, MILLION, most - 2 * MILLION), &planned_lone(999_999_999 * MILLION, 999_999_999));
    expect_lone((FULL.0, FULL.1 - 1, 0), (MILLION, MILLION, most), "no fit at count 0\n");
    expect_lone((FULL.0 + 1, FULL.1, 0), (MILLION, MILLION, -most), "no fit at count 0\n");
}

/// Document 01's 1,000,000·c0 - 999,999·c1 = 1 has c1 = -999,999,999 + 1,000,000·k with k from 0 to 1,999: 1 at k = 1,000, and no 2.
#[test]
fn a_million_twice_in_a_group() {
    let fixed = |c1: i64| {
        job(
            &[(FULL.0, FULL.1, 3), (FULL.0, FULL.1, 0)],
            &[(0, 1, MILLION, 1 - MILLION, 1), (1, 1, MILLION, MILLION, 2 * MILLION * c1)],
        )
    };
    let planned = |worth: i64, c0: i64, c1: i64| {
        format!(
            "worth {worth}\ncount 0 number {c0} base {c0} step 0 group 0\ncount 1 number {c1} base {c1} step 0 group 0\n\
             group 0 fits 1 at 0 gain 0\n"
        )
    };
    let (counts, equations) = ([(0, 1), (0, 2)], [(0, 1), (0, 3)]);
    expect(&fixed(1), &planned(3, 1, 1), &counts, &equations);
    expect(&fixed(-999_999_999), &planned(-2_999_996_997, -999_998_999, -999_999_999), &counts, &equations);
    expect(&fixed(999_000_001), &planned(2_996_997_006, 998_999_002, 999_000_001), &counts, &equations);
    for between in [2, 0, 999_000_002, 1_000 * MILLION, -1_000 * MILLION] {
        expect(&fixed(between), "no fit at count 0\n", &counts, &equations);
    }
}

/// 0 = 5 in the group of counts 1 and 2, whose lowest is 1, or in that of count 0: the left count says which.
#[test]
fn zero_is_five() {
    let with = |first, tie| job(&[first, (0, 9, 0), (0, 9, 0)], &[(1, 2, 1, -1, 0), tie]);
    let (digit, counts) = ((0, 9, 0), [(0, 1), (1, 1), (1, 2)]);
    expect(&with(digit, (2, 0, 0, 0, 5)), "no fit at count 1\n", &counts, &[(1, 1), (1, 3)]);
    expect(&with(digit, (0, 2, 0, 0, 5)), "no fit at count 0\n", &counts, &[(1, 1), (0, 3)]);
    // the group of count 0 has no fit by itself, and comes first
    expect(&with((9, 0, 0), (2, 0, 0, 0, 5)), "no fit at count 0\n", &counts, &[(1, 1), (1, 3)]);
    let counts = [(0, 0), (1, 1), (1, 2)];
    expect(&with(digit, (2, 2, 0, 0, 5)), "no fit at count 1\n", &counts, &[(1, 1), (1, 3)]);
    expect(&with(digit, (2, 2, 4, -4, 5)), "no fit at count 1\n", &counts, &[(1, 1), (1, 3)]);
}

/// With a = 0 and b not, the equation is one of the right count's group.
#[test]
fn in_the_right_counts_group() {
    let with = |tie| job(&[(0, 3, 1), (0, 9, 1)], &[tie]);
    let fixed = "worth 7
count 0 number 3 base 0 step 1 group 0
count 1 number 4 base 4 step 0 group 1
group 0 fits 4 at 3 gain 1
group 1 fits 1 at 0 gain 0
";
    let counts = [(0, 1), (1, 1)];
    expect(&with((0, 1, 0, 2, 8)), fixed, &counts, &[(1, 3)]);
    expect(&with((1, 0, 2, 0, 8)), fixed, &counts, &[(1, 3)]);
    expect(&with((0, 1, 0, 2, 9)), "no fit at count 1\n", &counts, &[(1, 3)]);
    // 4 is past the high of count 0
    expect(&with((1, 0, 0, 2, 8)), "no fit at count 0\n", &counts, &[(0, 3)]);
    expect(&with((0, 1, 2, 0, 8)), "no fit at count 0\n", &counts, &[(0, 3)]);
}

/// Groups {0, 1}, with c1 = c0 + 1, and {2, 3}, with c2 = 2·c3 + 1: both coefficients 0 between them leave them two.
#[test]
fn both_zero_between_two_groups() {
    let with = |left, right, c| {
        let counts = [(0, 3, 1), (0, 5, 0), (0, 9, -1), (0, 4, 0)];
        job(&counts, &[(0, 1, 1, -1, -1), (left, right, 0, 0, c), (2, 3, 1, -2, 1)])
    };
    let wanted = "worth 2
count 0 number 3 base 0 step 1 group 0
count 1 number 4 base 1 step 1 group 0
count 2 number 1 base 1 step 2 group 1
count 3 number 0 base 0 step 1 group 1
group 0 fits 4 at 3 gain 1
group 1 fits 5 at 0 gain -2
";
    let counts = [(0, 2), (0, 1), (1, 1), (1, 2)];
    expect(&with(3, 0, 0), wanted, &counts, &[(0, 1), (1, 3), (1, 1)]);
    expect(&with(0, 3, 0), wanted, &counts, &[(0, 1), (0, 3), (1, 1)]);
    expect(&with(3, 0, 7), "no fit at count 2\n", &counts, &[(0, 1), (1, 3), (1, 1)]);
    expect(&with(0, 3, 7), "no fit at count 0\n", &counts, &[(0, 1), (0, 3), (1, 1)]);
}

/// 3·c2 = 9 before, between and after c0 - 2·c1 = 1 and c1 - c2 = 0: 7, 3 and 3.
#[test]
fn before_and_after_a_count_is_tied() {
    let (tie, next, fix) = ((0, 1, 1, -2, 1), (1, 2, 1, -1, 0), (2, 2, 1, 2, 9));
    let wanted = "worth 7
count 0 number 7 base 7 step 0 group 0
count 1 number 3 base 3 step 0 group 0
count 2 number 3 base 3 step 0 group 0
group 0 fits 1 at 0 gain 0
";
    let (bounds, counts) = ([(0, 9, 1), (0, 9, 0), (0, 9, 0)], [(0, 1), (0, 2), (0, 2)]);
    expect(&job(&bounds, &[fix, tie, next]), wanted, &counts, &[(0, 3), (0, 1), (0, 1)]);
    expect(&job(&bounds, &[tie, fix, next]), wanted, &counts, &[(0, 1), (0, 3), (0, 1)]);
    expect(&job(&bounds, &[tie, next, fix]), wanted, &counts, &[(0, 1), (0, 1), (0, 3)]);
    // c2 = 5, and c0 = 11 is past its high
    let fix = (2, 2, 1, 2, 15);
    expect(&job(&bounds, &[fix, tie, next]), "no fit at count 0\n", &counts, &[(0, 3), (0, 1), (0, 1)]);
    expect(&job(&bounds, &[tie, next, fix]), "no fit at count 0\n", &counts, &[(0, 1), (0, 1), (0, 3)]);
}

/// Among c0 + c1 = 5 and c0 - c1 = 1, 3 and 2, a row with a zero is of kind 3, wherever it stands, and never makes another a ring.
#[test]
fn zero_between_joined_counts() {
    let (sum, difference) = ((0, 1, 1, 1, 5), (1, 0, -1, 1, 1));
    let one = "worth 3
count 0 number 3 base 3 step 0 group 0
count 1 number 2 base 2 step 0 group 0
group 0 fits 1 at 0 gain 0
";
    let bounds = [(0, 9, 1), (0, 9, 0)];
    let (two, three) = ([(0, 2), (0, 2)], [(0, 3), (0, 3)]);
    for zero in [(0, 1, 0, 2, 4), (1, 0, 2, 0, 4), (0, 1, 3, 0, 9), (1, 0, 0, 3, 9)] {
        expect(&job(&bounds, &[sum, zero]), one, &two, &[(0, 1), (0, 3)]);
        expect(&job(&bounds, &[zero, sum]), one, &two, &[(0, 3), (0, 1)]);
        expect(&job(&bounds, &[zero, sum, difference]), one, &three, &[(0, 3), (0, 1), (0, 2)]);
        expect(&job(&bounds, &[sum, zero, difference]), one, &three, &[(0, 1), (0, 3), (0, 2)]);
        expect(&job(&bounds, &[sum, difference, zero]), one, &three, &[(0, 1), (0, 2), (0, 3)]);
    }
    let all = "worth 5
count 0 number 5 base 0 step 1 group 0
count 1 number 0 base 5 step -1 group 0
group 0 fits 6 at 5 gain 1
";
    for (left, right) in [(0, 1), (1, 0)] {
        expect(&job(&bounds, &[(left, right, 0, 0, 0), sum]), all, &two, &[(0, 3), (0, 1)]);
        expect(&job(&bounds, &[sum, (left, right, 0, 0, 0)]), all, &two, &[(0, 1), (0, 3)]);
        expect(&job(&bounds, &[sum, (left, right, 0, 0, 1)]), "no fit at count 0\n", &two, &[(0, 1), (0, 3)]);
    }
}

/// c1 = 2·c2 with c1 in 0..9, beside a free count: fit-outs (0, 0) to (8, 4), until one equation on one count takes them all.
#[test]
fn emptied_by_one_count_alone() {
    let with = |ties: &[(usize, usize, i64, i64, i64)]| {
        job(&[(0, 1, 0), (0, 9, 0), (0, 9, 0)], &[&[(1, 2, 1, -2, 0)], ties].concat())
    };
    let all = "worth 0
count 0 number 1 base 0 step 1 group 0
count 1 number 8 base 0 step 2 group 1
count 2 number 4 base 0 step 1 group 1
group 0 fits 2 at 1 gain 0
group 1 fits 5 at 4 gain 0
";
    expect(&with(&[]), all, &[(0, 0), (1, 1), (1, 1)], &[(1, 1)]);
    // half a card; past the high of count 2; past that of count 1; a count 2 that is half a card
    for tie in [(2, 2, 2, 0, 7), (2, 2, 1, 1, 20), (2, 2, 0, 1, 5)] {
        expect(&with(&[tie]), "no fit at count 1\n", &[(0, 0), (1, 1), (1, 2)], &[(1, 1), (1, 3)]);
    }
    expect(&with(&[(1, 0, 1, 0, 3)]), "no fit at count 1\n", &[(0, 1), (1, 2), (1, 1)], &[(1, 1), (1, 3)]);
    // c1 = 6 and c2 = 2 are each of a fit-out, and not of one
    let wanted = "worth 0
count 0 number 1 base 0 step 1 group 0
count 1 number 6 base 6 step 0 group 1
count 2 number 3 base 3 step 0 group 1
group 0 fits 2 at 1 gain 0
group 1 fits 1 at 0 gain 0
";
    let six = (0, 1, 0, 1, 6);
    expect(&with(&[six]), wanted, &[(0, 1), (1, 2), (1, 1)], &[(1, 1), (1, 3)]);
    expect(&with(&[six, (2, 2, 1, 0, 2)]), "no fit at count 1\n", &[(0, 1), (1, 2), (1, 2)], &[(1, 1), (1, 3), (1, 3)]);
    expect(&with(&[six, (2, 2, 1, 0, 3)]), wanted, &[(0, 1), (1, 2), (1, 2)], &[(1, 1), (1, 3), (1, 3)]);
}

/// Four equations name count 0, two of them twice, and two name count 1, with coefficient 0.
#[test]
fn how_many_equations_name_a_count() {
    let ties = [(0, 0, 1, 1, 4), (0, 0, 5, -5, 0), (0, 1, 0, 0, 0), (1, 0, 0, 1, 2)];
    let wanted = "worth 4
count 0 number 2 base 2 step 0 group 0
count 1 number 2 base 1 step 1 group 1
group 0 fits 1 at 0 gain 0
group 1 fits 2 at 1 gain 1
";
    expect(&job(&[(0, 5, 1), (1, 2, 1)], &ties), wanted, &[(0, 4), (1, 2)], &[(0, 3); 4]);
}

/// 4 twice is 4; 4 and 5 is nothing, though each alone has a fit.
#[test]
fn the_same_count_fixed_twice() {
    let with = |c: i64| job(&[(0, 9, 1)], &[(0, 0, 1, 0, 4), (0, 0, 0, -2, -2 * c)]);
    expect(&with(4), &planned_lone(4, 4), &[(0, 2)], &[(0, 3); 2]);
    expect(&with(5), "no fit at count 0\n", &[(0, 2)], &[(0, 3); 2]);
}
