//! The planner's static archive, called directly as a C host calls it (host/fitplan.h).

use std::ptr;

/// Kind 1 is planned, 2 no fit, 3 refused; a field that does not apply is 0.
#[repr(C)]
#[derive(Clone, Copy, Debug, Default, PartialEq, Eq)]
pub struct Outcome {
    pub kind: u32,
    pub count: u32,
    pub reason: u32,
    pub row: u32,
    pub worth: i64,
}

// the lengths for which the archive is compiled
const _: () = assert!(size_of::<Outcome>() == 24 && size_of::<usize>() == 8);

extern "C" {
    fn fit_plan_v2(
        job: *const u8,
        job_length: usize,
        amendments: *const u8,
        amendments_length: usize,
        area: *mut u8,
        area_length: usize,
        map: *mut u8,
        map_length: usize,
        lent: u32,
    ) -> Outcome;
}

/// A planning call that lends no map.
pub fn plan(job: &[u8], amendments: &[u8], area: &mut [u8]) -> Outcome {
    let (job, job_length) = (job.as_ptr(), job.len());
    let (amendments, amendments_length) = (amendments.as_ptr(), amendments.len());
    let (area, area_length) = (area.as_mut_ptr(), area.len());
    // the host's duties: the lengths are those of slices, and a slice borrowed for writing overlaps with no other
    unsafe { fit_plan_v2(job, job_length, amendments, amendments_length, area, area_length, ptr::null_mut(), 0, 0) }
}
