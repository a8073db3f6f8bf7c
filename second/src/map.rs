//! The map of a job (document 02, #101 and #102), by searching paths: whether equations join two counts is seen by going from the one
//! to the other, and no sets are kept.

use crate::job::{Equation, Job};

const MARK: &[u8; 4] = b"MAP1";
const HEADER: usize = 24;
const ROW: usize = 4;

pub fn length(job: &Job) -> usize {
    HEADER + ROW * (job.counts.len() + job.equations.len())
}

pub fn bytes(job: &Job) -> Vec<u8> {
    let groups = groups(job);
    let mut bytes = header(job, groups.iter().max().map_or(0, |last| last + 1));
    for (count, &group) in groups.iter().enumerate() {
        let named = job.equations.iter().filter(|equation| equation.left == count || equation.right == count).count();
        push_row(&mut bytes, group, named);
    }
    for (equation, kind) in job.equations.iter().zip(kinds(job)) {
        push_row(&mut bytes, groups[equation.home()], kind);
    }
    bytes
}

fn header(job: &Job, groups: usize) -> Vec<u8> {
    let mut bytes = MARK.to_vec();
    push_row(&mut bytes, job.counts.len(), job.equations.len());
    for offset in [HEADER, HEADER + ROW * job.counts.len()] {
        bytes.extend((offset as u32).to_le_bytes());
    }
    push_row(&mut bytes, groups, 0);
    bytes.extend([0; 4]);
    bytes
}

/// Two numbers, u16 both.
fn push_row(bytes: &mut Vec<u8>, x: usize, y: usize) {
    for number in [x, y] {
        bytes.extend(u16::try_from(number).expect("a number of the map has 16 bits").to_le_bytes());
    }
}

/// The number of each count's group: a count that no path from a lower one leads to begins the next group.
pub fn groups(job: &Job) -> Vec<usize> {
    let mut paths = Paths::none(job);
    job.equations.iter().for_each(|equation| paths.add(equation));
    let mut groups = vec![None; job.counts.len()];
    let mut next = 0;
    for lowest in 0..groups.len() {
        if groups[lowest].is_none() {
            paths.reached_from(lowest).into_iter().for_each(|count| groups[count] = Some(next));
            next += 1;
        }
    }
    groups.into_iter().map(|group| group.expect("every count is reached, at the latest from itself")).collect()
}

/// 3 for an equation that joins nothing; else 1 where no path of earlier ones joins its counts, and 2 where one does.
fn kinds(job: &Job) -> Vec<usize> {
    let mut paths = Paths::none(job);
    let kind = |equation: &Equation| {
        let joined = paths.lead(equation);
        paths.add(equation);
        if equation.joins() {
            1 + usize::from(joined)
        } else {
            3
        }
    };
    job.equations.iter().map(kind).collect()
}

/// The counts that joining equations put next to each count.
struct Paths(Vec<Vec<usize>>);

impl Paths {
    fn none(job: &Job) -> Paths {
        Paths(vec![Vec::new(); job.counts.len()])
    }

    fn add(&mut self, equation: &Equation) {
        if equation.joins() {
            self.0[equation.left].push(equation.right);
            self.0[equation.right].push(equation.left);
        }
    }

    /// Whether the two counts of an equation are joined already.
    fn lead(&self, equation: &Equation) -> bool {
        self.reached_from(equation.left).contains(&equation.right)
    }

    /// The counts that paths lead to, the nearest first: breadth-first search.
    fn reached_from(&self, start: usize) -> Vec<usize> {
        let mut seen = vec![false; self.0.len()];
        let mut reached = vec![start];
        seen[start] = true;
        let mut at = 0;
        while at < reached.len() {
            for &count in &self.0[reached[at]] {
                if !seen[count] {
                    seen[count] = true;
                    reached.push(count);
                }
            }
            at += 1;
        }
        reached
    }
}

#[cfg(test)]
mod tests {
    use super::*;
    use crate::job::Count;
    use crate::made::{self, Size};
    use crate::plan::{plan_job, Outcome};
    use crate::random::Random;

    /// So many counts, and equations between these. The map says nothing of any other number.
    fn job(n: usize, ties: &[(usize, usize)]) -> Job {
        let equation = |&(left, right)| Equation { left, right, a: 1, b: -1, c: 0 };
        Job { counts: vec![Count { low: 0, high: 9, weight: 0 }; n], equations: ties.iter().map(equation).collect() }
    }

    /// The header as told by its bytes n, m, offset of the equation rows and g; then the rows.
    fn expect(job: &Job, [n, m, offset, g]: [u8; 4], rows: &[[u8; 4]]) {
        #[rustfmt::skip]
        let header = [b'M', b'A', b'P', b'1', n, 0, m, 0, 24, 0, 0, 0, offset, 0, 0, 0, g, 0, 0, 0, 0, 0, 0, 0];
        assert_eq!(bytes(job), [&header[..], rows.as_flattened()].concat());
        assert_eq!(length(job), bytes(job).len());
    }

    #[test]
    fn job_m() {
        let counts = [(0, 20, -30), (0, 200, 4), (0, 9, -10), (2, 5, 0)];
        let ties = [(1, 16, -1, 0), (2, 2, -3, 4)];
        let job = Job {
            counts: counts.iter().map(|&(low, high, weight)| Count { low, high, weight }).collect(),
            equations: ties.iter().map(|&(right, a, b, c)| Equation { left: 0, right, a, b, c }).collect(),
        };
        let counts = [[0, 0, 2, 0], [0, 0, 1, 0], [0, 0, 1, 0], [1, 0, 0, 0]];
        expect(&job, [4, 2, 40, 2], &[&counts[..], &[[0, 0, 1, 0], [0, 0, 1, 0]]].concat());
    }

    #[test]
    fn nothing_tied() {
        expect(&job(0, &[]), [0, 0, 24, 0], &[]);
        expect(&job(1, &[]), [1, 0, 28, 1], &[[0, 0, 0, 0]]);
        expect(&job(3, &[]), [3, 0, 36, 3], &[[0, 0, 0, 0], [1, 0, 0, 0], [2, 0, 0, 0]]);
    }

    /// Counts 1, 2 and 3 in a ring that the last row closes, with a row for another group between.
    #[test]
    fn ring() {
        let job = job(6, &[(1, 3), (2, 3), (5, 0), (2, 1)]);
        let counts = [[0, 0, 1, 0], [1, 0, 2, 0], [1, 0, 2, 0], [1, 0, 2, 0], [2, 0, 0, 0], [0, 0, 1, 0]];
        let ties = [[1, 0, 1, 0], [1, 0, 1, 0], [0, 0, 1, 0], [1, 0, 2, 0]];
        expect(&job, [6, 4, 48, 3], &[&counts[..], &ties[..]].concat());
    }

    /// The last row joins groups 0 and 2 of the rows before it: row 0 goes from group 2 to 0, count 5 from 3 to 2.
    #[test]
    fn groups_join() {
        let job = job(6, &[(3, 4), (0, 1), (4, 1)]);
        let counts = [[0, 0, 1, 0], [0, 0, 2, 0], [1, 0, 0, 0], [0, 0, 1, 0], [0, 0, 2, 0], [2, 0, 0, 0]];
        expect(&job, [6, 3, 48, 3], &[&counts[..], &[[0, 0, 1, 0]; 3]].concat());
    }

    #[test]
    fn same_equation_twice() {
        let counts = [[0, 0, 2, 0]; 2];
        for ties in [[(0, 1), (0, 1)], [(0, 1), (1, 0)]] {
            expect(&job(2, &ties), [2, 2, 32, 1], &[&counts[..], &[[0, 0, 1, 0], [0, 0, 2, 0]]].concat());
        }
    }

    /// A row of kind 3 joins nothing, so that one between the same counts after it is of kind 1. It adds one to the count that it names
    /// twice, and to one whose coefficient is 0.
    #[test]
    fn zeros_and_the_same_count() {
        let mut job = job(3, &[(0, 1), (0, 1), (1, 1), (1, 0), (2, 2), (0, 2)]);
        job.equations[0].a = 0;
        job.equations[2].b = 1;
        (job.equations[5].a, job.equations[5].b, job.equations[5].c) = (0, 0, 1);
        let counts = [[0, 0, 4, 0], [0, 0, 4, 0], [1, 0, 2, 0]];
        let ties = [[0, 0, 3, 0], [0, 0, 1, 0], [0, 0, 3, 0], [0, 0, 2, 0], [1, 0, 3, 0], [0, 0, 3, 0]];
        expect(&job, [3, 6, 36, 2], &[&counts[..], &ties[..]].concat());
        // of two groups, that of the count whose coefficient is not 0
        job.equations[5].b = 1;
        let ties = [&ties[..5], &[[1, 0, 3, 0]]].concat();
        expect(&job, [3, 6, 36, 2], &[&counts[..], &ties[..]].concat());
    }

    /// The groups are those of the sheet; every row of kind 1 leaves one group less; every row names two counts, or one twice.
    #[test]
    fn random_jobs() {
        let mut planned = 0;
        for number in 0..2_000 {
            let random = &mut Random::new(6, number);
            let size = random.pick(&[Size::Small, Size::Middle, Size::Middle, Size::Large]);
            let job = made::hidden(random, size);
            let (n, g) = (job.counts.len(), groups(&job).into_iter().max().map_or(0, |last| last + 1));
            assert_eq!(kinds(&job).into_iter().filter(|&kind| kind == 1).count(), n - g);
            let named =
                bytes(&job)[24..24 + 4 * n].chunks(4).map(|row| usize::from(row[2]) + 256 * usize::from(row[3])).sum();
            let counts = |equation: &Equation| if equation.left == equation.right { 1 } else { 2 };
            assert_eq!(job.equations.iter().map(counts).sum::<usize>(), named);
            if let Outcome::Planned(sheet) = plan_job(&job) {
                assert_eq!(sheet.counts.iter().map(|row| row.group).collect::<Vec<usize>>(), groups(&job));
                planned += 1;
            }
        }
        assert!(planned > 1_000, "only {planned} were planned");
    }

    /// Numbers past 255: a star of 256 counts, whose last row is there 769 times more.
    #[test]
    fn full_frame() {
        let ties: Vec<(usize, usize)> = (0..1_024).map(|row: usize| (0, (row + 1).min(255))).collect();
        let map = bytes(&job(256, &ties));
        assert_eq!(map.len(), 24 + 4 * 256 + 4 * 1_024);
        assert_eq!(map[4..18], [0, 1, 0, 4, 24, 0, 0, 0, 24, 4, 0, 0, 1, 0]);
        assert_eq!(map[24..32], [0, 0, 0, 4, 0, 0, 1, 0]); // count 0 is named by 1,024
        assert_eq!(map[24 + 4 * 255..24 + 4 * 256], [0, 0, 2, 3]); // count 255 by 770
        assert!(map[24 + 4 * 256..].chunks(4).enumerate().all(|(row, bytes)| bytes == [0, 0, 1 + u8::from(row >= 255), 0]));
    }

    /// The same with 1,024 rows that name count 255 twice.
    #[test]
    fn full_frame_of_kind_3() {
        let map = bytes(&job(256, &[(255, 255); 1_024]));
        assert_eq!(map[16..18], [0, 1]); // 256 groups
        assert_eq!(map[24 + 4 * 254..24 + 4 * 256], [254, 0, 0, 0, 255, 0, 0, 4]);
        assert!(map[24 + 4 * 256..].chunks(4).all(|bytes| bytes == [255, 0, 3, 0]));
    }
}
