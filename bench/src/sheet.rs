//! The choice in each group, and the bytes of the sheet (document 01, "The sheet").

use crate::job::Job;

const MARK: &[u8; 4] = b"ANS1";
pub const HEADER: usize = 24;
pub const ROW: usize = 16;

/// A count in the fit-outs of its group: base + step·k.
#[derive(Clone, Copy)]
pub struct Line {
    pub base: i128,
    pub step: i128,
}

/// The length for so many counts and groups.
pub fn length(counts: usize, groups: usize) -> usize {
    HEADER + ROW * counts + ROW * groups
}

/// Choose in each group, write the sheet, and give the worth.
pub fn write(area: &mut [u8], job: &Job, group: &[u16], fits: &[i128], lines: &[Line]) -> i64 {
    let (n, g) = (job.counts.len(), fits.len());
    let mut gains = vec![0; g];
    for ((count, line), &group) in job.counts.iter().zip(lines).zip(group) {
        gains[usize::from(group)] += i128::from(count.weight) * line.step;
    }
    // the lowest count of a group rises with k, so among equals the last has the higher number there
    let chosen: Vec<i128> = fits.iter().zip(&gains).map(|(fits, &gain)| if gain < 0 { 0 } else { fits - 1 }).collect();
    let (header, rows) = area.split_at_mut(HEADER);
    let (count_rows, group_rows) = rows.split_at_mut(ROW * n);
    let mut worth = 0;
    for (i, row) in count_rows.chunks_exact_mut(ROW).enumerate() {
        let number = lines[i].base + lines[i].step * chosen[usize::from(group[i])];
        worth += i128::from(job.counts[i].weight) * number;
        write_count(row, number, lines[i], group[i]);
    }
    for (i, row) in group_rows.chunks_exact_mut(ROW).take(g).enumerate() {
        row[0..4].copy_from_slice(&(fits[i] as u32).to_le_bytes());
        row[4..8].copy_from_slice(&(chosen[i] as u32).to_le_bytes());
        row[8..16].copy_from_slice(&(gains[i] as i64).to_le_bytes());
    }
    write_header(header, n, g, worth as i64);
    worth as i64
}

fn write_count(row: &mut [u8], number: i128, line: Line, group: u16) {
    row[0..4].copy_from_slice(&(number as i32).to_le_bytes());
    row[4..8].copy_from_slice(&(line.base as i32).to_le_bytes());
    row[8..12].copy_from_slice(&(line.step as i32).to_le_bytes());
    row[12..14].copy_from_slice(&group.to_le_bytes());
    row[14..16].copy_from_slice(&[0, 0]);
}

fn write_header(header: &mut [u8], n: usize, g: usize, worth: i64) {
    header[0..4].copy_from_slice(MARK);
    header[4..6].copy_from_slice(&(n as u16).to_le_bytes());
    header[6..8].copy_from_slice(&(g as u16).to_le_bytes());
    header[8..12].copy_from_slice(&(HEADER as u32).to_le_bytes());
    header[12..16].copy_from_slice(&((HEADER + ROW * n) as u32).to_le_bytes());
    header[16..24].copy_from_slice(&worth.to_le_bytes());
}

/// A sheet, read back from an area.
#[derive(Debug, PartialEq, Eq)]
pub struct Sheet {
    pub worth: i64,
    pub counts: Vec<CountRow>,
    pub groups: Vec<GroupRow>,
}

#[derive(Debug, PartialEq, Eq)]
pub struct CountRow {
    pub number: i32,
    pub base: i32,
    pub step: i32,
    pub group: u16,
}

#[derive(Debug, PartialEq, Eq)]
pub struct GroupRow {
    pub fits: u32,
    pub chosen: u32,
    pub gain: i64,
}

impl Sheet {
    pub fn read(area: &[u8]) -> Sheet {
        let (n, g) = (u16_at(area, 4).into(), u16_at(area, 6).into());
        let rows = |at: usize, many: usize| area[at..at + ROW * many].chunks_exact(ROW);
        let count = |row: &[u8]| CountRow {
            number: u32_at(row, 0) as i32,
            base: u32_at(row, 4) as i32,
            step: u32_at(row, 8) as i32,
            group: u16_at(row, 12),
        };
        let group = |row: &[u8]| GroupRow { fits: u32_at(row, 0), chosen: u32_at(row, 4), gain: i64_at(row, 8) };
        let (counts, groups) = (rows(HEADER, n).map(count), rows(HEADER + ROW * n, g).map(group));
        Sheet { worth: i64_at(area, 16), counts: counts.collect(), groups: groups.collect() }
    }

    /// How many counts the group has.
    pub fn size(&self, group: usize) -> usize {
        self.counts.iter().filter(|row| usize::from(row.group) == group).count()
    }
}

fn u16_at(bytes: &[u8], at: usize) -> u16 {
    u16::from_le_bytes([bytes[at], bytes[at + 1]])
}

fn u32_at(bytes: &[u8], at: usize) -> u32 {
    u32::from_le_bytes(bytes[at..at + 4].try_into().expect("four bytes"))
}

fn i64_at(bytes: &[u8], at: usize) -> i64 {
    i64::from_le_bytes(bytes[at..at + 8].try_into().expect("eight bytes"))
}
