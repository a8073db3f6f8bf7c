//! Amendments of a job's bounds: read and checked by the table of reasons, and written (document 02, #105).

use crate::job::{i32_at, refused, u16_at, u32_at, within, Job, Refusal, MOST_NUMBER};

const ROW: usize = 20;

pub const MOST_AMENDMENTS: usize = 512;

#[derive(Clone, Copy, Debug, PartialEq, Eq)]
pub struct Amendment {
    pub number: u32,
    /// the number of another one, or 0 for none
    pub supersedes: u32,
    pub count: u16,
    pub zero: u16,
    pub low: i32,
    pub high: i32,
}

impl Amendment {
    fn read(row: &[u8]) -> Amendment {
        Amendment {
            number: u32_at(row, 0),
            supersedes: u32_at(row, 4),
            count: u16_at(row, 8),
            zero: u16_at(row, 10),
            low: i32_at(row, 12),
            high: i32_at(row, 16),
        }
    }

    fn in_range(&self) -> bool {
        within(self.low, MOST_NUMBER) && within(self.high, MOST_NUMBER)
    }
}

/// The job so amended, or the first line of the table that turns the amendments away. Each reason is tested over all of them before the
/// next.
pub fn amended(mut job: Job, bytes: &[u8]) -> Result<Job, Refusal> {
    let all = read(bytes)?;
    let superseded = superseded(&all, job.counts.len())?;
    let in_force: Vec<(usize, Amendment)> = (0..).zip(all.iter().copied()).filter(|&(row, _)| !superseded[row]).collect();
    check_twice(&in_force, job.counts.len())?;
    if let Some(row) = all.iter().position(|amendment| !amendment.in_range()) {
        return refused(5, row);
    }
    for (_, amendment) in in_force {
        let count = &mut job.counts[usize::from(amendment.count)];
        (count.low, count.high) = (amendment.low, amendment.high);
    }
    Ok(job)
}

/// Reason 11, else the rows.
fn read(bytes: &[u8]) -> Result<Vec<Amendment>, Refusal> {
    if !bytes.len().is_multiple_of(ROW) || bytes.len() > ROW * MOST_AMENDMENTS {
        return refused(11, 0);
    }
    let all: Vec<Amendment> = bytes.chunks_exact(ROW).map(Amendment::read).collect();
    match all.iter().position(|amendment| amendment.zero != 0) {
        Some(row) => refused(11, row),
        None => Ok(all),
    }
}

/// Reason 12, else which of them are superseded.
fn superseded(all: &[Amendment], n: usize) -> Result<Vec<bool>, Refusal> {
    let mut superseded = vec![false; all.len()];
    let mut before = 0;
    for (row, this) in all.iter().enumerate() {
        if this.number <= before || usize::from(this.count) >= n {
            return refused(12, row);
        }
        before = this.number;
        if this.supersedes != 0 {
            // the numbers of the earlier ones rise
            match all[..row].binary_search_by_key(&this.supersedes, |other| other.number) {
                Ok(other) if all[other].count == this.count => superseded[other] = true,
                _ => return refused(12, row),
            }
        }
    }
    Ok(superseded)
}

/// Reason 13: two in force for one count.
fn check_twice(in_force: &[(usize, Amendment)], n: usize) -> Result<(), Refusal> {
    let mut has_one = vec![false; n];
    for &(row, amendment) in in_force {
        let count = usize::from(amendment.count);
        if has_one[count] {
            return refused(13, row);
        }
        has_one[count] = true;
    }
    Ok(())
}

/// The bytes of amendments. Nothing is checked, so that faulty ones can be written too.
pub fn write(all: &[Amendment]) -> Vec<u8> {
    let mut bytes = Vec::with_capacity(ROW * all.len());
    for amendment in all {
        bytes.extend(amendment.number.to_le_bytes());
        bytes.extend(amendment.supersedes.to_le_bytes());
        bytes.extend(amendment.count.to_le_bytes());
        bytes.extend(amendment.zero.to_le_bytes());
        bytes.extend(amendment.low.to_le_bytes());
        bytes.extend(amendment.high.to_le_bytes());
    }
    bytes
}
