//! What a planning call gives: the outcome, and what stands in both areas afterwards (document 01, "The sheet"; 02, #101 and
//! #105).

use crate::amendments::amended;
use crate::job::{Job, Refusal};
use crate::plan::{plan_job, Outcome};
use crate::{map, sheet};

/// Plan the job as amended, and write into the areas as the planner does. There is a map area only where one is lent.
pub fn call(bytes: &[u8], amendments: &[u8], area: &mut [u8], map: Option<&mut [u8]>) -> Outcome {
    let job = match amended(bytes, amendments) {
        Ok(job) => job,
        Err(refusal) => return Outcome::Refused(refusal),
    };
    if area.len() < sheet_length(&job) {
        return Outcome::Refused(Refusal { reason: 8, row: 0 });
    }
    if map.as_ref().is_some_and(|map| map.len() < map::length(&job)) {
        return Outcome::Refused(Refusal { reason: 10, row: 0 });
    }
    let outcome = plan_job(&job);
    if let Outcome::Planned(sheet) = &outcome {
        let bytes = sheet::bytes(sheet);
        assert_eq!(bytes.len(), sheet_length(&job), "the map and the sheet have the same groups");
        write(area, &bytes);
    }
    if let Some(map) = map {
        write(map, &map::bytes(&job));
    }
    outcome
}

/// The length of the job's sheet, known before any fit is sought: by the groups of the map.
pub fn sheet_length(job: &Job) -> usize {
    let groups = map::groups(job).into_iter().max().map_or(0, |last| last + 1);
    sheet::length(job.counts.len(), groups)
}

fn write(area: &mut [u8], bytes: &[u8]) {
    area[..bytes.len()].copy_from_slice(bytes);
}

#[cfg(test)]
mod tests {
    use super::*;
    use crate::job::{self, Count, Equation};

    /// 2·c0 - 2·c1 = c: a sheet of 72 bytes and a map of 36. With an odd c there is no fit.
    fn job(c: i64) -> Vec<u8> {
        let counts = vec![Count { low: 0, high: 9, weight: 1 }; 2];
        job::write(&Job { counts, equations: vec![Equation { left: 0, right: 1, a: 2, b: -2, c }] })
    }

    const PLANNED: (u8, usize) = (0, 0);
    const NO_FIT: (u8, usize) = (0, 1);

    /// The outcome, with areas of these lengths that are full of 7, and how many bytes at the head of each area were written.
    fn after(bytes: &[u8], area: usize, map: Option<usize>) -> ((u8, usize), usize, usize) {
        let mut area = vec![7; area];
        let mut map = map.map(|length| vec![7; length]);
        let outcome = match call(bytes, &[], &mut area, map.as_deref_mut()) {
            Outcome::Planned(_) => PLANNED,
            Outcome::NoFit(_) => NO_FIT,
            Outcome::Refused(refusal) => (refusal.reason, refusal.row),
        };
        let written = |area: &[u8]| area.iter().rposition(|&byte| byte != 7).map_or(0, |last| last + 1);
        (outcome, written(&area), map.map_or(0, |map| written(&map)))
    }

    #[test]
    fn written() {
        assert_eq!(after(&job(0), 72, Some(36)), (PLANNED, 72, 36));
        assert_eq!(after(&job(0), 100, Some(100)), (PLANNED, 72, 36));
        assert_eq!(after(&job(0), 72, None), (PLANNED, 72, 0));
        assert_eq!(after(&job(1), 72, Some(36)), (NO_FIT, 0, 36));
        assert_eq!(after(&job(1), 100, Some(100)), (NO_FIT, 0, 36));
        assert_eq!(after(&job(1), 72, None), (NO_FIT, 0, 0));
    }

    #[test]
    fn refused() {
        for c in [0, 1] {
            // a short map is seen before any fit is sought, and after a short answer area; lent with length 0 it is short too
            assert_eq!(after(&job(c), 72, Some(35)), ((10, 0), 0, 0));
            assert_eq!(after(&job(c), 72, Some(0)), ((10, 0), 0, 0));
            assert_eq!(after(&job(c), 71, Some(35)), ((8, 0), 0, 0));
            assert_eq!(after(&job(c), 71, Some(36)), ((8, 0), 0, 0));
            assert_eq!(after(&job(c), 71, None), ((8, 0), 0, 0));
            assert_eq!(after(&job(c)[..23], 72, Some(36)), ((1, 0), 0, 0));
        }
        assert_eq!(after(&job(i64::MAX), 0, Some(0)), ((7, 0), 0, 0));
    }

    #[test]
    fn nothing_to_plan() {
        let none = job::write(&Job::default());
        assert_eq!(after(&none, 24, Some(24)), (PLANNED, 24, 24));
        assert_eq!(after(&none, 24, Some(23)), ((10, 0), 0, 0));
        assert_eq!(after(&none, 23, Some(0)), ((8, 0), 0, 0));
    }
}
