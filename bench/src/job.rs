//! The job: its bytes, read and checked by the table of reasons, and written (document 01, "The job" and "The sheet"; 02, #102).

const MARK: &[u8; 4] = b"FIT1";
const HEADER: usize = 24;
const COUNT_ROW: usize = 12;
const EQUATION_ROW: usize = 20;

pub const MOST_COUNTS: usize = 256;
pub const MOST_EQUATIONS: usize = 1_024;
pub const MOST_NUMBER: i64 = 1_000_000_000;
pub const MOST_WEIGHT: i64 = 1_000_000;
pub const MOST_COEFFICIENT: i64 = 1_000_000;
pub const MOST_SIDE: i64 = 2_000_000_000_000_000;

#[derive(Clone, Copy, Debug, PartialEq, Eq)]
pub struct Count {
    pub low: i32,
    pub high: i32,
    pub weight: i32,
}

/// a·left + b·right = c
#[derive(Clone, Copy, Debug, PartialEq, Eq)]
pub struct Equation {
    pub left: u16,
    pub right: u16,
    pub a: i32,
    pub b: i32,
    pub c: i64,
}

#[derive(Clone, Debug, Default, PartialEq, Eq)]
pub struct Job {
    pub counts: Vec<Count>,
    pub equations: Vec<Equation>,
}

#[derive(Clone, Copy, Debug, PartialEq, Eq)]
pub struct Refusal {
    pub reason: u32,
    pub row: u32,
}

impl Count {
    fn read(row: &[u8]) -> Count {
        Count { low: i32_at(row, 0), high: i32_at(row, 4), weight: i32_at(row, 8) }
    }

    fn in_range(&self) -> bool {
        within(self.low, MOST_NUMBER) && within(self.high, MOST_NUMBER) && within(self.weight, MOST_WEIGHT)
    }
}

impl Equation {
    fn read(row: &[u8]) -> Equation {
        let c = i64::from_le_bytes(row[12..20].try_into().expect("eight bytes"));
        Equation { left: u16_at(row, 0), right: u16_at(row, 2), a: i32_at(row, 4), b: i32_at(row, 8), c }
    }

    /// Whether it joins two counts; otherwise it fixes one, or none.
    pub fn joins(&self) -> bool {
        self.left != self.right && self.a != 0 && self.b != 0
    }

    /// A count of the group that it belongs to.
    pub fn home(&self) -> u16 {
        if self.a == 0 && self.b != 0 {
            self.right
        } else {
            self.left
        }
    }

    fn names_counts_below(&self, n: usize) -> bool {
        usize::from(self.left) < n && usize::from(self.right) < n
    }

    fn in_range(&self) -> bool {
        within(self.a, MOST_COEFFICIENT) && within(self.b, MOST_COEFFICIENT) && self.c.unsigned_abs() <= MOST_SIDE as u64
    }
}

/// The length for so many counts and equations.
pub fn length(counts: usize, equations: usize) -> usize {
    HEADER + COUNT_ROW * counts + EQUATION_ROW * equations
}

/// The job that the bytes are, or the first line of the table that turns them away.
pub fn read(bytes: &[u8]) -> Result<Job, Refusal> {
    let (n, m) = check_header(bytes)?;
    let (count_rows, equation_rows) = bytes[HEADER..].split_at(COUNT_ROW * n);
    let mut counts = Vec::with_capacity(n);
    for (row, bytes) in count_rows.chunks_exact(COUNT_ROW).enumerate() {
        let count = Count::read(bytes);
        if !count.in_range() {
            return refused(5, row);
        }
        counts.push(count);
    }
    let mut equations = Vec::with_capacity(m);
    for (row, bytes) in equation_rows.chunks_exact(EQUATION_ROW).enumerate() {
        let equation = Equation::read(bytes);
        if !equation.names_counts_below(n) {
            return refused(6, row);
        }
        if !equation.in_range() {
            return refused(7, row);
        }
        equations.push(equation);
    }
    Ok(Job { counts, equations })
}

/// Reasons 1 to 4; else n and m.
fn check_header(bytes: &[u8]) -> Result<(usize, usize), Refusal> {
    if bytes.len() < HEADER {
        return refused(1, 0);
    }
    if &bytes[..4] != MARK {
        return refused(2, 0);
    }
    let (n, m) = (usize::from(u16_at(bytes, 4)), usize::from(u16_at(bytes, 6)));
    if n > MOST_COUNTS || m > MOST_EQUATIONS {
        return refused(3, 0);
    }
    let (start, end) = (length(n, 0), length(n, m));
    let fields = [8, 12, 16, 20].map(|at| u32_at(bytes, at) as usize);
    if fields != [HEADER, start, end, 0] || bytes.len() != end {
        return refused(4, 0);
    }
    Ok((n, m))
}

/// The bytes of a job. Nothing is checked, so that faulty jobs can be written too.
pub fn write(job: &Job) -> Vec<u8> {
    let (n, m) = (job.counts.len(), job.equations.len());
    let mut bytes = MARK.to_vec();
    bytes.extend((n as u16).to_le_bytes());
    bytes.extend((m as u16).to_le_bytes());
    for field in [HEADER, length(n, 0), length(n, m), 0] {
        bytes.extend((field as u32).to_le_bytes());
    }
    for count in &job.counts {
        for field in [count.low, count.high, count.weight] {
            bytes.extend(field.to_le_bytes());
        }
    }
    for equation in &job.equations {
        bytes.extend(equation.left.to_le_bytes());
        bytes.extend(equation.right.to_le_bytes());
        bytes.extend(equation.a.to_le_bytes());
        bytes.extend(equation.b.to_le_bytes());
        bytes.extend(equation.c.to_le_bytes());
    }
    bytes
}

pub fn refused<T>(reason: u32, row: usize) -> Result<T, Refusal> {
    Err(Refusal { reason, row: row as u32 })
}

pub fn within(x: i32, most: i64) -> bool {
    i64::from(x.unsigned_abs()) <= most
}

pub fn u16_at(bytes: &[u8], at: usize) -> u16 {
    u16::from_le_bytes([bytes[at], bytes[at + 1]])
}

pub fn u32_at(bytes: &[u8], at: usize) -> u32 {
    u32::from_le_bytes(bytes[at..at + 4].try_into().expect("four bytes"))
}

pub fn i32_at(bytes: &[u8], at: usize) -> i32 {
    u32_at(bytes, at) as i32
}
