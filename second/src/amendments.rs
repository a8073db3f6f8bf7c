//! Amendments of a job's bounds: their bytes, the reasons for which they are refused, and the job so amended (document 02, #105).

pub mod cases;
pub mod drawn;
pub mod faults;
#[cfg(test)]
mod traps;

use crate::job::{self, i32_at, u16_at, u32_at, within, Job, Refusal, MOST_NUMBER};

pub const ROW: usize = 20;
pub const MOST_AMENDMENTS: usize = 512;

/// The reasons in their order. Each is tested over all amendments before the next.
const REASONS: [u8; 4] = [11, 12, 13, 5];

#[derive(Clone, Debug, PartialEq, Eq)]
pub struct Amendment {
    pub number: u32,
    /// the number of another one, or 0 for none
    pub supersedes: u32,
    pub count: usize,
    pub zero: u16,
    pub low: i64,
    pub high: i64,
}

/// The job so amended, or the first line of the table that turns the job or its amendments away.
pub fn amended(job: &[u8], amendments: &[u8]) -> Result<Job, Refusal> {
    let mut job = job::read(job)?;
    for amendment in read(amendments, job.counts.len())? {
        let count = &mut job.counts[amendment.count];
        (count.low, count.high) = (amendment.low, amendment.high);
    }
    Ok(job)
}

/// The amendments in force of a job of n counts, or why they are refused.
pub fn read(bytes: &[u8], n: usize) -> Result<Vec<Amendment>, Refusal> {
    if !bytes.len().is_multiple_of(ROW) || bytes.len() > ROW * MOST_AMENDMENTS {
        return Err(Refusal { reason: 11, row: 0 });
    }
    let all = rows(bytes);
    for reason in REASONS {
        if let Some(row) = (0..all.len()).find(|&row| breaks(reason, &all, row, n)) {
            return Err(Refusal { reason, row });
        }
    }
    Ok((0..all.len()).filter(|&row| in_force(&all, row)).map(|row| all[row].clone()).collect())
}

/// The whole rows, whatever they say.
pub fn rows(bytes: &[u8]) -> Vec<Amendment> {
    bytes.chunks_exact(ROW).map(read_row).collect()
}

/// Whether the amendment in that row breaks the rule of the reason.
fn breaks(reason: u8, all: &[Amendment], row: usize, n: usize) -> bool {
    let this = &all[row];
    match reason {
        11 => this.zero != 0,
        12 => !rises(all, row) || this.count >= n || !supersedes_rightly(all, row),
        13 => in_force(all, row) && (0..row).any(|other| all[other].count == this.count && in_force(all, other)),
        _ => !within(this.low, MOST_NUMBER) || !within(this.high, MOST_NUMBER),
    }
}

/// Numbers rise "from at least 1".
fn rises(all: &[Amendment], row: usize) -> bool {
    all[row].number >= 1 && all[..row].iter().all(|earlier| earlier.number < all[row].number)
}

/// None, or "an earlier one for the same count".
fn supersedes_rightly(all: &[Amendment], row: usize) -> bool {
    let this = &all[row];
    this.supersedes == 0 || all[..row].iter().any(|earlier| earlier.number == this.supersedes && earlier.count == this.count)
}

/// "A sheet is in force if no other supersedes it", be that one in force or not.
pub fn in_force(all: &[Amendment], row: usize) -> bool {
    !all.iter().any(|other| other.supersedes == all[row].number)
}

fn read_row(row: &[u8]) -> Amendment {
    Amendment {
        number: u32_at(row, 0) as u32,
        supersedes: u32_at(row, 4) as u32,
        count: u16_at(row, 8),
        zero: u16_at(row, 10) as u16,
        low: i32_at(row, 12),
        high: i32_at(row, 16),
    }
}

/// The bytes of amendments. Nothing is checked, so that faulty ones can be written too.
pub fn write(all: &[Amendment]) -> Vec<u8> {
    let mut bytes = Vec::with_capacity(ROW * all.len());
    for amendment in all {
        bytes.extend(amendment.number.to_le_bytes());
        bytes.extend(amendment.supersedes.to_le_bytes());
        bytes.extend((amendment.count as u16).to_le_bytes());
        bytes.extend(amendment.zero.to_le_bytes());
        bytes.extend((amendment.low as i32).to_le_bytes());
        bytes.extend((amendment.high as i32).to_le_bytes());
    }
    bytes
}
