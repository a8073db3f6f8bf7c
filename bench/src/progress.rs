//! Long work says on standard error how far it is.

use std::time::{Duration, Instant};

pub struct Progress {
    what: &'static str,
    of: u64,
    told: Instant,
}

impl Progress {
    pub fn new(what: &'static str, of: u64) -> Progress {
        Progress { what, of, told: Instant::now() }
    }

    /// A line every two seconds.
    pub fn done(&mut self, many: u64) {
        if self.told.elapsed() >= Duration::from_secs(2) {
            eprintln!("bench: {many} of {} {}", self.of, self.what);
            self.told = Instant::now();
        }
    }
}
