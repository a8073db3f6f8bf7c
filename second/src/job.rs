//! The job: its bytes, and the table of the reasons for which it is refused (document 01, "The job" and "The sheet"; 02, #102).

const MARK: &[u8; 4] = b"FIT1";
const HEADER: usize = 24;
const COUNT_ROW: usize = 12;
const EQUATION_ROW: usize = 20;

pub const MOST_COUNTS: usize = 256;
pub const MOST_EQUATIONS: usize = 1_024;
pub const MOST_NUMBER: i64 = 1_000_000_000;
pub const MOST_WEIGHT: i64 = 1_000_000;
pub const MOST_COEFFICIENT: i64 = 1_000_000;
pub const MOST_SIDE: i64 = 2_000_000_000_000_000;

#[derive(Clone, Debug)]
pub struct Count {
    pub low: i64,
    pub high: i64,
    pub weight: i64,
}

/// a·left + b·right = c
#[derive(Clone, Debug)]
pub struct Equation {
    pub left: usize,
    pub right: usize,
    pub a: i64,
    pub b: i64,
    pub c: i64,
}

#[derive(Clone, Debug, Default)]
pub struct Job {
    pub counts: Vec<Count>,
    pub equations: Vec<Equation>,
}

#[derive(Clone, Copy, Debug, PartialEq, Eq)]
pub struct Refusal {
    pub reason: u8,
    pub row: usize,
}

impl Count {
    fn in_range(&self) -> bool {
        within(self.low, MOST_NUMBER) && within(self.high, MOST_NUMBER) && within(self.weight, MOST_WEIGHT)
    }
}

impl Equation {
    /// "An equation joins counts only if they differ and neither coefficient is 0."
    pub fn joins(&self) -> bool {
        self.left != self.right && self.a != 0 && self.b != 0
    }

    /// The count to whose group it belongs: one with a nonzero coefficient, or the left one when there is none. Where it joins, the
    /// other is in that group too.
    pub fn home(&self) -> usize {
        if self.a == 0 && self.b != 0 {
            self.right
        } else {
            self.left
        }
    }

    fn names_counts_below(&self, n: usize) -> bool {
        self.left < n && self.right < n
    }

    fn in_range(&self) -> bool {
        within(self.a, MOST_COEFFICIENT) && within(self.b, MOST_COEFFICIENT) && within(self.c, MOST_SIDE)
    }
}

/// The job that the bytes are, or the first line of the table that turns them away.
pub fn read(bytes: &[u8]) -> Result<Job, Refusal> {
    let job = read_rows(bytes)?;
    check_rows(&job.counts, &job.equations)?;
    Ok(job)
}

/// Reasons 1 to 4; else the rows, whatever they say.
pub fn read_rows(bytes: &[u8]) -> Result<Job, Refusal> {
    let refused = |reason| Err(Refusal { reason, row: 0 });
    if bytes.len() < HEADER {
        return refused(1);
    }
    if &bytes[..4] != MARK {
        return refused(2);
    }
    let (n, m) = rows(bytes);
    if n > MOST_COUNTS || m > MOST_EQUATIONS {
        return refused(3);
    }
    let (start, end) = (HEADER + COUNT_ROW * n, HEADER + COUNT_ROW * n + EQUATION_ROW * m);
    let fields: Vec<usize> = [8, 12, 16, 20].iter().map(|&at| u32_at(bytes, at)).collect();
    if fields != [HEADER, start, end, 0] || bytes.len() != end {
        return refused(4);
    }
    Ok(Job {
        counts: bytes[HEADER..start].chunks(COUNT_ROW).map(read_count).collect(),
        equations: bytes[start..].chunks(EQUATION_ROW).map(read_equation).collect(),
    })
}

/// How many count and equation rows the header says that there are.
pub fn rows(bytes: &[u8]) -> (usize, usize) {
    (u16_at(bytes, 4), u16_at(bytes, 6))
}

/// Reasons 5 to 7: the rows in turn, counts first; in one equation row 6 comes before 7.
fn check_rows(counts: &[Count], equations: &[Equation]) -> Result<(), Refusal> {
    for (row, count) in counts.iter().enumerate() {
        if !count.in_range() {
            return Err(Refusal { reason: 5, row });
        }
    }
    for (row, equation) in equations.iter().enumerate() {
        if !equation.names_counts_below(counts.len()) {
            return Err(Refusal { reason: 6, row });
        }
        if !equation.in_range() {
            return Err(Refusal { reason: 7, row });
        }
    }
    Ok(())
}

/// The bytes of a job. Nothing is checked, so that faulty jobs can be written too.
pub fn write(job: &Job) -> Vec<u8> {
    let (n, m) = (job.counts.len(), job.equations.len());
    let start = HEADER + COUNT_ROW * n;
    let mut bytes = MARK.to_vec();
    bytes.extend((n as u16).to_le_bytes());
    bytes.extend((m as u16).to_le_bytes());
    for field in [HEADER, start, start + EQUATION_ROW * m, 0] {
        bytes.extend((field as u32).to_le_bytes());
    }
    for count in &job.counts {
        for field in [count.low, count.high, count.weight] {
            bytes.extend((field as i32).to_le_bytes());
        }
    }
    for equation in &job.equations {
        bytes.extend((equation.left as u16).to_le_bytes());
        bytes.extend((equation.right as u16).to_le_bytes());
        bytes.extend((equation.a as i32).to_le_bytes());
        bytes.extend((equation.b as i32).to_le_bytes());
        bytes.extend(equation.c.to_le_bytes());
    }
    bytes
}

fn read_count(row: &[u8]) -> Count {
    Count { low: i32_at(row, 0), high: i32_at(row, 4), weight: i32_at(row, 8) }
}

fn read_equation(row: &[u8]) -> Equation {
    Equation {
        left: u16_at(row, 0),
        right: u16_at(row, 2),
        a: i32_at(row, 4),
        b: i32_at(row, 8),
        c: i64::from_le_bytes(part(row, 12)),
    }
}

pub fn within(x: i64, most: i64) -> bool {
    -most <= x && x <= most
}

fn part<const N: usize>(bytes: &[u8], at: usize) -> [u8; N] {
    bytes[at..at + N].try_into().expect("a slice of N bytes")
}

pub fn u16_at(bytes: &[u8], at: usize) -> usize {
    u16::from_le_bytes(part(bytes, at)).into()
}

pub fn u32_at(bytes: &[u8], at: usize) -> usize {
    u32::from_le_bytes(part(bytes, at)) as usize
}

pub fn i32_at(bytes: &[u8], at: usize) -> i64 {
    i32::from_le_bytes(part(bytes, at)).into()
}

#[cfg(test)]
mod tests {
    use super::*;

    /// Three counts and two ties, all of them lawful.
    fn lawful() -> Job {
        let count = Count { low: 0, high: 9, weight: 1 };
        let equation = |left, right| Equation { left, right, a: 1, b: -1, c: 0 };
        Job { counts: vec![count; 3], equations: vec![equation(0, 1), equation(1, 2)] }
    }

    /// The reason and row for the lawful job after a change of its rows; (0, 0) if it is accepted.
    fn after(change: impl Fn(&mut Job)) -> (u8, usize) {
        let mut job = lawful();
        change(&mut job);
        answer(&write(&job))
    }

    /// The same after a change of its bytes.
    fn after_bytes(change: impl Fn(&mut Vec<u8>)) -> (u8, usize) {
        let mut bytes = write(&lawful());
        change(&mut bytes);
        answer(&bytes)
    }

    fn answer(bytes: &[u8]) -> (u8, usize) {
        match read(bytes) {
            Ok(_) => (0, 0),
            Err(refusal) => (refusal.reason, refusal.row),
        }
    }

    #[test]
    fn headers() {
        assert_eq!(after_bytes(|_| ()), (0, 0));
        for length in 0..24 {
            assert_eq!(after_bytes(|b| b.truncate(length)), (1, 0));
        }
        for at in 0..4 {
            assert_eq!(after_bytes(|b| b[at] ^= 1), (2, 0));
        }
        assert_eq!(after_bytes(|b| b[5] = 1), (3, 0)); // n = 259
        assert_eq!(after_bytes(|b| b[7] = 5), (3, 0)); // m = 1,282
        for at in 8..24 {
            assert_eq!(after_bytes(|b| b[at] ^= 128), (4, 0));
        }
        assert_eq!(after_bytes(|b| b[4] = 2), (4, 0));
        assert_eq!(after_bytes(|b| b[6] = 1), (4, 0));
        assert_eq!(after_bytes(|b| b.push(0)), (4, 0));
        assert_eq!(after_bytes(|b| b.truncate(b.len() - 1)), (4, 0));
    }

    #[test]
    fn many_rows() {
        let counts = |n: usize| after(|j| j.counts.resize(n, j.counts[0].clone()));
        let equations = |m: usize| after(|j| j.equations.resize(m, j.equations[0].clone()));
        assert_eq!((counts(256), counts(257)), ((0, 0), (3, 0)));
        assert_eq!((equations(1_024), equations(1_025)), ((0, 0), (3, 0)));
    }

    #[test]
    fn count_rows() {
        for sign in [1, -1] {
            assert_eq!(after(|j| j.counts[2].low = sign * MOST_NUMBER), (0, 0));
            assert_eq!(after(|j| j.counts[2].high = sign * MOST_NUMBER), (0, 0));
            assert_eq!(after(|j| j.counts[2].weight = sign * MOST_WEIGHT), (0, 0));
            assert_eq!(after(|j| j.counts[2].low = sign * (MOST_NUMBER + 1)), (5, 2));
            assert_eq!(after(|j| j.counts[1].high = sign * (MOST_NUMBER + 1)), (5, 1));
            assert_eq!(after(|j| j.counts[0].weight = sign * (MOST_WEIGHT + 1)), (5, 0));
        }
    }

    #[test]
    fn equation_rows() {
        assert_eq!(after(|j| j.equations[1].left = 3), (6, 1));
        assert_eq!(after(|j| j.equations[1].right = 3), (6, 1));
        assert_eq!(after(|j| (j.equations[1].left, j.equations[1].right) = (3, 3)), (6, 1));
        for sign in [1, -1] {
            assert_eq!(after(|j| j.equations[0].a = sign * MOST_COEFFICIENT), (0, 0));
            assert_eq!(after(|j| j.equations[0].b = sign * MOST_COEFFICIENT), (0, 0));
            assert_eq!(after(|j| j.equations[0].c = sign * MOST_SIDE), (0, 0));
            assert_eq!(after(|j| j.equations[0].a = sign * (MOST_COEFFICIENT + 1)), (7, 0));
            assert_eq!(after(|j| j.equations[0].b = sign * (MOST_COEFFICIENT + 1)), (7, 0));
            assert_eq!(after(|j| j.equations[0].c = sign * (MOST_SIDE + 1)), (7, 0));
        }
    }

    /// The same count on both sides, and zeros. A coefficient is in range by itself: the sum may be twice as large, and does not make
    /// up for one that is out of range.
    #[test]
    fn zeros_and_the_same_count() {
        assert_eq!(after(|j| j.equations[1].left = 2), (0, 0));
        assert_eq!(after(|j| j.equations[1].a = 0), (0, 0));
        assert_eq!(after(|j| j.equations[1].b = 0), (0, 0));
        assert_eq!(after(|j| (j.equations[1].a, j.equations[1].b) = (0, 0)), (0, 0));
        assert_eq!(after(|j| (j.equations[1].a, j.equations[1].right) = (0, 3)), (6, 1));
        assert_eq!(after(|j| (j.equations[1].a, j.equations[1].c) = (0, MOST_SIDE + 1)), (7, 1));
        let twice = |a, b| after(|j| j.equations[1] = Equation { left: 2, right: 2, a, b, c: 0 });
        for most in [MOST_COEFFICIENT, -MOST_COEFFICIENT] {
            assert_eq!([twice(most, most), twice(most, -most), twice(0, most)], [(0, 0); 3]);
            let past = most + most.signum();
            assert_eq!([twice(past, -past), twice(past, 0), twice(0, past), twice(2 * most, 0)], [(7, 1); 4]);
        }
    }

    #[test]
    fn joins_and_homes() {
        let told = |left, right, a, b| {
            let equation = Equation { left, right, a, b, c: 5 };
            (equation.joins(), equation.home())
        };
        assert_eq!(told(1, 2, 3, -3), (true, 1));
        assert_eq!([told(1, 2, 3, 0), told(1, 2, 0, 0)], [(false, 1); 2]);
        assert_eq!([told(1, 2, 0, 3), told(2, 1, 3, 0), told(2, 1, 0, 0)], [(false, 2); 3]);
        assert_eq!([told(2, 2, 3, 4), told(2, 2, 3, -3), told(2, 2, 0, 3), told(2, 2, 0, 0)], [(false, 2); 4]);
    }

    #[test]
    fn order_of_the_table() {
        // 7 at row 0 before 6 at row 1; in one row 6 before 7; a count row before any equation row
        let past = MOST_COEFFICIENT + 1;
        assert_eq!(after(|j| (j.equations[0].a, j.equations[1].left) = (past, 9)), (7, 0));
        assert_eq!(after(|j| (j.equations[1].a, j.equations[1].left) = (past, 9)), (6, 1));
        assert_eq!(after(|j| (j.equations[0].a, j.counts[2].low) = (past, -2_000_000_000)), (5, 2));
        // a lawful row 0 that joins nothing does not come before them
        assert_eq!(after(|j| (j.equations[0].a, j.equations[1].left) = (0, 9)), (6, 1));
        assert_eq!(after(|j| (j.equations[0].left, j.equations[1].a) = (1, past)), (7, 1));
    }
}
