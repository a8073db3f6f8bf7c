//! Pseudo-random planning calls: a job of any kind, amendments of any kind, and areas of all lengths around the right ones.

use crate::amendments::faults::MOST_ROWS;
use crate::amendments::{drawn, ROW};
use crate::call::sheet_length;
use crate::job;
use crate::made::{self, Size};
use crate::random::Random;
use crate::{damaged, map, spoiled};

/// The longest job, the longest amendments, with a row begun, and the longest area that a call has.
pub const MOST_JOB: usize = 100_000;
pub const MOST_AMENDMENT_BYTES: usize = ROW * (MOST_ROWS + 1);
pub const MOST_AREA: usize = 20_000;
pub const MOST_GAP: usize = 7;

/// How many amendments in a hundred have faults.
const FAULTY: i64 = 20;

/// All that a call is given. None is a null pointer with length 0.
pub struct Call {
    pub job: Option<Vec<u8>>,
    pub amendments: Option<Vec<u8>>,
    pub area: Option<Vec<u8>>,
    pub map: Option<Vec<u8>>,
    /// bit 0 says whether the map area is lent; the others are noise
    pub lent: u32,
    /// how far job, amendments, area and map end before their fences: 0, or some bytes, since they need not begin at an even address
    pub gaps: [usize; 4],
}

impl Call {
    /// Settled by the seed and the number.
    pub fn new(seed: u64, number: u64) -> Call {
        let random = &mut Random::new(seed, number);
        let mut job = some_job(random);
        let amendments = drawn::for_job(random, &mut job, FAULTY);
        let (sheet, map) = match job::read(&job) {
            Ok(job) => (sheet_length(&job), map::length(&job)),
            Err(_) => (random.pick(&[24, 120, 8_216]), random.pick(&[24, 48, 5_144])),
        };
        let (lent, noise) = (u32::from(random.chance(75)), random.next() as u32);
        Call {
            job: (!random.chance(1)).then_some(job),
            amendments,
            area: some_area(random, sheet),
            map: some_area(random, map),
            lent: if random.chance(60) { lent } else { noise & !1 | lent },
            gaps: [(); 4].map(|()| if random.chance(80) { 0 } else { random.index(MOST_GAP + 1) }),
        }
    }

    pub fn job(&self) -> &[u8] {
        self.job.as_deref().unwrap_or_default()
    }

    pub fn amendments(&self) -> &[u8] {
        self.amendments.as_deref().unwrap_or_default()
    }

    pub fn area(&self) -> &[u8] {
        self.area.as_deref().unwrap_or_default()
    }

    pub fn map(&self) -> &[u8] {
        self.map.as_deref().unwrap_or_default()
    }

    pub fn map_is_lent(&self) -> bool {
        self.lent & 1 == 1
    }
}

/// As those of `compare` and `spoiled`, but fewer large ones, which take long.
fn some_job(random: &mut Random) -> Vec<u8> {
    match random.index(100) {
        0..=29 => job::write(&made::hidden(random, Size::Small)),
        30..=37 => job::write(&made::wild(random, 5)),
        38..=39 => job::write(&made::wild(random, 40)),
        40..=64 => job::write(&made::hidden(random, Size::Middle)),
        65..=68 => job::write(&made::hidden(random, Size::Large)),
        69..=76 => damaged::damaged(random),
        77..=80 => damaged::at_limits(random),
        81..=82 => damaged::of_any_length(random),
        _ => spoiled::spoiled(random),
    }
}

/// Junk of the exact length, one byte less, more, none or any; where there is none, perhaps a null pointer.
fn some_area(random: &mut Random, exact: usize) -> Option<Vec<u8>> {
    let length = match random.index(20) {
        0..=8 => exact,
        9..=13 => exact + random.pick(&[1, 2, 3, 4, 16, 250]),
        14..=16 => exact - 1,
        17 => 0,
        _ => random.index(2 * exact),
    };
    (length > 0 || random.chance(50)).then(|| (0..length).map(|_| random.next() as u8).collect())
}
