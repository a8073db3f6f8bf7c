//! The planner's static archive, called directly as a C host calls it: its entries, as host/fitplan.h declares them, and a safe
//! function for each.

use std::ptr;

/// Kind 1 is planned, 2 no fit, 3 refused; a field that does not apply is 0.
#[repr(C)]
#[derive(Clone, Copy, Debug, Default, PartialEq, Eq)]
pub struct Outcome {
    pub kind: u32,
    pub count: u32,
    pub reason: u32,
    pub row: u32,
    pub worth: i64,
}

/// Reason 0 is accepted, here and below.
#[repr(C)]
#[derive(Clone, Copy, Debug, Default, PartialEq, Eq)]
pub struct Checked {
    pub reason: u32,
    pub row: u32,
}

#[repr(C)]
#[derive(Clone, Copy, Debug, Default, PartialEq, Eq)]
pub struct Quotient {
    pub reason: u32,
    pub row: u32,
    pub quotient: i64,
}

#[repr(C)]
#[derive(Clone, Copy, Debug, Default, PartialEq, Eq)]
pub struct Run {
    pub first: i64,
    pub step: i64,
    pub many: u32,
}

#[repr(C)]
#[derive(Clone, Copy, Debug, Default, PartialEq, Eq)]
pub struct Working {
    pub reason: u32,
    pub row: u32,
    pub run: Run,
}

// the lengths for which the archive is compiled
const _: () = assert!(size_of::<Outcome>() == 24 && size_of::<Checked>() == 8 && size_of::<Quotient>() == 16);
const _: () = assert!(size_of::<Run>() == 24 && size_of::<Working>() == 32 && size_of::<usize>() == 8);

extern "C" {
    fn fit_plan_v2(
        job: *const u8,
        job_length: usize,
        amendments: *const u8,
        amendments_length: usize,
        area: *mut u8,
        area_length: usize,
        map: *mut u8,
        map_length: usize,
        lent: u32,
    ) -> Outcome;
    fn fit_check(job: *const u8, job_length: usize) -> Checked;
    fn fit_check_amendments(job: *const u8, job_length: usize, amendments: *const u8, amendments_length: usize) -> Checked;
    fn fit_divide(n: i64, d: i64) -> Quotient;
    fn fit_meet(a: Run, b: Run) -> Working;
    fn fit_carry(a: i64, b: i64, c: i64, q: Run) -> Working;
}

/// A planning call. None is a null pointer with length 0; bit 0 of `lent` says that the map area is lent.
pub fn plan(
    job: Option<&[u8]>,
    amendments: Option<&[u8]>,
    area: Option<&mut [u8]>,
    map: Option<&mut [u8]>,
    lent: u32,
) -> Outcome {
    let ((job, job_length), (amendments, amendments_length)) = (read_only(job), read_only(amendments));
    let ((area, area_length), (map, map_length)) = (writable(area), writable(map));
    // the host's duties: the lengths are those of slices, and slices borrowed for writing overlap with no other
    unsafe { fit_plan_v2(job, job_length, amendments, amendments_length, area, area_length, map, map_length, lent) }
}

pub fn check(job: Option<&[u8]>) -> Checked {
    let (job, length) = read_only(job);
    // the length is that of a slice
    unsafe { fit_check(job, length) }
}

pub fn check_amendments(job: Option<&[u8]>, amendments: Option<&[u8]>) -> Checked {
    let ((job, job_length), (amendments, amendments_length)) = (read_only(job), read_only(amendments));
    // the lengths are those of slices
    unsafe { fit_check_amendments(job, job_length, amendments, amendments_length) }
}

pub fn divide(n: i64, d: i64) -> Quotient {
    // numbers only, here and below
    unsafe { fit_divide(n, d) }
}

pub fn meet(a: Run, b: Run) -> Working {
    unsafe { fit_meet(a, b) }
}

pub fn carry(a: i64, b: i64, c: i64, q: Run) -> Working {
    unsafe { fit_carry(a, b, c, q) }
}

fn read_only(bytes: Option<&[u8]>) -> (*const u8, usize) {
    bytes.map_or((ptr::null(), 0), |bytes| (bytes.as_ptr(), bytes.len()))
}

fn writable(bytes: Option<&mut [u8]>) -> (*mut u8, usize) {
    bytes.map_or((ptr::null_mut(), 0), |bytes| (bytes.as_mut_ptr(), bytes.len()))
}
