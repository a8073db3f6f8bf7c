//! Says which call it was when a signal stops the program, as a touch of a fence does.

use std::io::Write;
use std::sync::atomic::{AtomicU64, Ordering::Relaxed};
use std::sync::OnceLock;

/// Linux's numbers for an unlawful instruction, an abort, a fault of the bus, one of arithmetic, and an address not to be touched.
const SIGNALS: [i32; 5] = [4, 6, 7, 8, SEGMENT];
const SEGMENT: i32 = 11;

static SWEEP: OnceLock<&str> = OnceLock::new();
static SEED: AtomicU64 = AtomicU64::new(0);
static NUMBER: AtomicU64 = AtomicU64::new(0);

extern "C" {
    fn signal(number: i32, handler: extern "C" fn(i32)) -> usize;
    fn write(file: i32, bytes: *const u8, length: usize) -> isize;
    fn _exit(status: i32) -> !;
}

/// From here on a signal is told of, as one in this sweep.
pub fn watch(sweep: &'static str) {
    SWEEP.get_or_init(|| sweep);
    for number in SIGNALS {
        // the handler does only what a handler may
        unsafe { signal(number, stopped) };
    }
}

/// The call that comes now.
pub fn at(seed: u64, number: u64) {
    SEED.store(seed, Relaxed);
    NUMBER.store(number, Relaxed);
}

/// Without a lock or an allocation: the line is put together in place.
extern "C" fn stopped(signal: i32) {
    let mut line = [0; 250];
    let mut rest = &mut line[..];
    let (sweep, seed, number) = (SWEEP.get().unwrap_or(&""), SEED.load(Relaxed), NUMBER.load(Relaxed));
    let why = if signal == SEGMENT { ", since memory outside the buffers was touched" } else { "" };
    let _ = write!(rest, "second: seed {seed}, call {number} STOPPED by signal {signal}{why}; ");
    let _ = writeln!(rest, "to run it again: second {sweep} {seed} 1 {number}");
    let length = 250 - rest.len();
    // the first bytes of the line are written out, and the program ends
    unsafe {
        write(1, line.as_ptr(), length);
        _exit(1)
    }
}
