//! Calls the archive's workings on many pseudo-random arguments, and compares what they give with the plain readings.

use std::fmt::Debug;
use std::io;

use crate::archive::{self, Quotient, Run, Working};
use crate::job::{MOST_COEFFICIENT, MOST_NUMBER, MOST_SIDE};
use crate::plain::{self, MOST_DIVIDED};
use crate::random::Random;
use crate::stop;
use crate::tally::{Part, Tally};

const KINDS: [Part; 3] = [
    ("division", &[("rounded", 15), ("rounded with mixed signs", 15), ("without rest", 30), ("not divided", 60)]),
    ("meeting", &[("met in none", 15), ("met in one", 60), ("met in more", 30), ("not met", 30)]),
    (
        "carrying",
        &[
            ("carried to none", 15),
            ("carried to one", 30),
            ("carried to more", 15),
            ("not carried", 30),
            ("not carried by a zero alone", 300),
        ],
    ),
];

/// Compare on so many calls, up to the first difference; whether all is well. The last line says what was done.
pub fn workings(seed: u64, calls: u64, first: u64) -> io::Result<bool> {
    let mut tally = Tally::new(&KINDS);
    stop::watch("workings");
    for number in first..first + calls {
        stop::at(seed, number);
        let random = &mut Random::new(seed, number);
        let found = match random.index(3) {
            0 => divide(random, &mut tally),
            1 => meet(random, &mut tally),
            _ => carry(random, &mut tally),
        };
        if let Some(text) = found {
            println!("second: seed {seed}, call {number} DIFFERS; to run it again: second workings {seed} 1 {number}");
            println!("  {text}");
            return Ok(false);
        }
    }
    Ok(tally.report(seed, calls, "calls of the archive's workings"))
}

fn divide(random: &mut Random, tally: &mut Tally) -> Option<String> {
    let (n, d) = dividend_and_divisor(random);
    let wanted = match plain::divide(n, d) {
        Some(quotient) => Quotient { quotient, ..Quotient::default() },
        None => Quotient { reason: 9, ..Quotient::default() },
    };
    tally.add(match wanted.reason {
        0 if n % d == 0 => "without rest",
        0 if (n < 0) != (d < 0) => "rounded with mixed signs",
        0 => "rounded",
        _ => "not divided",
    });
    differ(&format!("{n} by {d}"), archive::divide(n, d), wanted)
}

fn meet(random: &mut Random, tally: &mut Tally) -> Option<String> {
    let (x, y) = (some_number(random), some_number(random));
    let y = if random.chance(60) { x } else { y };
    let (a, b) = (some_run(random, x), some_run(random, y));
    let wanted = working(plain::meet(a, b));
    tally.add(kind_of(&wanted, ["met in none", "met in one", "met in more", "not met"]));
    differ(&format!("{a:?} met with {b:?}"), archive::meet(a, b), wanted)
}

fn carry(random: &mut Random, tally: &mut Tally) -> Option<String> {
    let number = some_number(random);
    let (q, (a, b, c)) = (some_run(random, number), some_tie(random, number));
    let wanted = working(plain::carry(a, b, c, q));
    tally.add(kind_of(&wanted, ["carried to none", "carried to one", "carried to more", "not carried"]));
    let nonzero = |x| if x == 0 { 1 } else { x };
    tally.add_if(wanted.reason == 9 && plain::carry(nonzero(a), nonzero(b), c, q).is_some(), "not carried by a zero alone");
    differ(&format!("carried over {a}·p + {b}·q = {c} from {q:?}"), archive::carry(a, b, c, q), wanted)
}

fn differ<T: Debug + PartialEq>(what: &str, given: T, wanted: T) -> Option<String> {
    (given != wanted).then(|| format!("{what} is {given:?}, and {wanted:?} is wanted"))
}

fn working(run: Option<Run>) -> Working {
    Working { reason: if run.is_some() { 0 } else { 9 }, row: 0, run: run.unwrap_or_default() }
}

fn kind_of<'a>(wanted: &Working, [none, one, more, refused]: [&'a str; 4]) -> &'a str {
    match (wanted.reason, wanted.run.many) {
        (0, 0) => none,
        (0, 1) => one,
        (0, _) => more,
        _ => refused,
    }
}

/// Any numbers, numbers that divide evenly or nearly, and numbers at the limits and past them.
fn dividend_and_divisor(random: &mut Random) -> (i64, i64) {
    let any = |random: &mut Random| match random.index(3) {
        0 => random.between(-MOST_DIVIDED, MOST_DIVIDED),
        _ => random.sign() * random.sized(MOST_DIVIDED / 10),
    };
    let limit = random.sign() * (MOST_DIVIDED + random.between(-1, 1));
    let limit = random.pick(&[limit, limit, i64::MIN, i64::MAX, 0, 1, -1]);
    match random.index(10) {
        0..=2 => (any(random), any(random)),
        3..=7 => {
            let d = random.sign() * random.sized(MOST_NUMBER);
            (random.sign() * d * random.sized(MOST_NUMBER) + random.between(-1, 1), d)
        }
        8 => (any(random), limit),
        _ => (limit, any(random)),
    }
}

/// A number of the range.
fn some_number(random: &mut Random) -> i64 {
    let (near, far) = (random.sized(40), random.sized(MOST_NUMBER));
    random.sign() * random.pick(&[near, far, far, MOST_NUMBER, 0])
}

/// Runs of all sizes, most of them in their one form, and most of these through this number.
fn some_run(random: &mut Random, through: i64) -> Run {
    match random.index(20) {
        0 => Run::default(),
        1..=2 => Run { first: through, step: 0, many: 1 },
        3 => Run { first: -MOST_NUMBER, step: 1, many: 2_000_000_001 },
        4..=7 => Run { first: random.between(-40, 40), step: random.between(1, 12), many: random.between(2, 30) as u32 },
        8..=17 => run_through(random, through),
        _ => broken_run(random),
    }
}

/// To either side as far as the range goes, or less far.
fn run_through(random: &mut Random, number: i64) -> Run {
    let step = random.sized(MOST_NUMBER);
    let mut steps = |room: i64| if random.chance(30) { room / step } else { random.between(0, room / step) };
    let (down, up) = (steps(MOST_NUMBER + number), steps(MOST_NUMBER - number));
    let many = (down + 1 + up) as u32;
    Run { first: number - down * step, step: if many > 1 { step } else { 0 }, many }
}

/// Not in the one form, or past the range.
fn broken_run(random: &mut Random) -> Run {
    let (past, far) = (MOST_NUMBER + 1, random.pick(&[i64::MIN, i64::MAX, 1 << 32, -(1 << 32)]));
    let (first, step, many) = random.pick(&[
        (1, 0, 0),
        (0, 1, 0),
        (5, 3, 1),
        (5, 0, 2),
        (5, -1, 2),
        (past, 0, 1),
        (-past, 0, 1),
        (-past, 1, 2),
        (0, 1, past as u32 + 1),
        (1, MOST_NUMBER, 2),
        (-MOST_NUMBER, 1, u32::MAX),
        (far, 1, 2),
        (0, far, 2),
        (far, far, u32::MAX),
        (0, 0, u32::MAX),
    ]);
    Run { first, step, many }
}

/// An equation that mostly has a p for this q; or one with a number out of its range.
fn some_tie(random: &mut Random, q: i64) -> (i64, i64, i64) {
    let most = random.pick(&[5, 1_000, MOST_COEFFICIENT]);
    let (a, b) = (random.sign() * random.sized(most), random.sign() * random.sized(most));
    let (near, far) = (random.between(-50, 50), random.between(-MOST_SIDE, MOST_SIDE));
    let held = a * some_number(random) + b * q;
    let c = random.pick(&[held, held, near, far]);
    let wrong = random.pick(&[0, 0, 0, MOST_COEFFICIENT + 1, -MOST_COEFFICIENT - 1, i64::MIN, i64::MAX, 1 << 32]);
    let wrong_side = random.sign() * random.pick(&[MOST_SIDE + 1, i64::MAX]);
    match random.index(30) {
        0 => (wrong, b, c),
        1 => (a, wrong, c),
        2 => (a, b, wrong_side),
        3 => (random.sign() * MOST_COEFFICIENT, b, random.sign() * MOST_SIDE),
        4 => (wrong, wrong, c),
        _ => (a, b, c),
    }
}
