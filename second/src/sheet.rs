//! The bytes of a sheet (document 01, "The sheet").

use crate::plan::Sheet;

const MARK: &[u8; 4] = b"ANS1";
const HEADER: usize = 24;
const ROW: usize = 16;

/// The length for so many counts and groups.
pub fn length(counts: usize, groups: usize) -> usize {
    HEADER + ROW * counts + ROW * groups
}

pub fn bytes(sheet: &Sheet) -> Vec<u8> {
    let (n, g) = (sheet.counts.len(), sheet.groups.len());
    let mut bytes = MARK.to_vec();
    bytes.extend((n as u16).to_le_bytes());
    bytes.extend((g as u16).to_le_bytes());
    for offset in [HEADER, HEADER + ROW * n] {
        bytes.extend((offset as u32).to_le_bytes());
    }
    bytes.extend(sheet.worth.to_le_bytes());
    for row in &sheet.counts {
        for number in [row.number, row.base, row.step] {
            bytes.extend(i32::try_from(number).expect("a number of a row has 32 bits").to_le_bytes());
        }
        bytes.extend((row.group as u32).to_le_bytes()); // a u16, and a zero u16 behind it
    }
    for row in &sheet.groups {
        for number in [row.fits, row.at] {
            bytes.extend(u32::try_from(number).expect("fits and k have 32 bits").to_le_bytes());
        }
        bytes.extend(row.gain.to_le_bytes());
    }
    bytes
}

#[cfg(test)]
mod tests {
    use super::*;
    use crate::plan::{CountRow, GroupRow};

    /// Job M, with the numbers of document 01 and what #104 makes of count 3 and group 1.
    #[test]
    fn job_m() {
        let count = |number, base, step, group| CountRow { number, base, step, group };
        let sheet = Sheet {
            worth: 314,
            counts: vec![count(11, 2, 3, 0), count(176, 32, 48, 0), count(6, 0, 2, 0), count(5, 2, 1, 1)],
            groups: vec![GroupRow { fits: 4, at: 3, gain: 82 }, GroupRow { fits: 4, at: 3, gain: 0 }],
        };
        #[rustfmt::skip]
        let wanted = [
            b'A', b'N', b'S', b'1', 4, 0, 2, 0, 24, 0, 0, 0, 88, 0, 0, 0, 58, 1, 0, 0, 0, 0, 0, 0,
            11, 0, 0, 0, 2, 0, 0, 0, 3, 0, 0, 0, 0, 0, 0, 0,
            176, 0, 0, 0, 32, 0, 0, 0, 48, 0, 0, 0, 0, 0, 0, 0,
            6, 0, 0, 0, 0, 0, 0, 0, 2, 0, 0, 0, 0, 0, 0, 0,
            5, 0, 0, 0, 2, 0, 0, 0, 1, 0, 0, 0, 1, 0, 0, 0,
            4, 0, 0, 0, 3, 0, 0, 0, 82, 0, 0, 0, 0, 0, 0, 0,
            4, 0, 0, 0, 3, 0, 0, 0, 0, 0, 0, 0, 0, 0, 0, 0,
        ];
        assert_eq!(bytes(&sheet), wanted);
        assert_eq!(length(4, 2), wanted.len());
    }

    /// Negative numbers, and the greatest of each field.
    #[test]
    fn signs_and_sizes() {
        let sheet = Sheet {
            worth: -2,
            counts: vec![CountRow { number: -1, base: -1_000_000_000, step: -256, group: 0 }],
            groups: vec![GroupRow { fits: 2_000_000_001, at: 2_000_000_000, gain: -1 }],
        };
        #[rustfmt::skip]
        let rows = [
            255, 255, 255, 255, 0, 54, 101, 196, 0, 255, 255, 255, 0, 0, 0, 0,
            1, 148, 53, 119, 0, 148, 53, 119, 255, 255, 255, 255, 255, 255, 255, 255,
        ];
        assert_eq!(bytes(&sheet)[16..24], [254, 255, 255, 255, 255, 255, 255, 255]);
        assert_eq!(bytes(&sheet)[24..], rows);
    }
}
