//! On what, and how built, the measurements are made.

use std::fs;
use std::thread;

use crate::measure;

/// Lines for the head of a table.
pub fn lines() -> [String; 3] {
    let cores = thread::available_parallelism().map_or(0, usize::from);
    let (system, architecture) = (std::env::consts::OS, std::env::consts::ARCH);
    let [compiler, profile, level] = [env!("BENCH_COMPILER"), env!("BENCH_PROFILE"), env!("BENCH_LEVEL")];
    [
        format!("machine: {}, {cores} cores, {architecture} {system}; load {} as it begins", processor(), load()),
        format!("built:   both for release: the plain program by {compiler}, profile {profile}, opt-level {level};"),
        format!(
            "         the archive as tools/library makes it ({}); the clock takes {:.2} µs, which is in every figure",
            env!("BENCH_ARCHIVE"),
            measure::clock()
        ),
    ]
}

fn processor() -> String {
    let text = fs::read_to_string("/proc/cpuinfo").unwrap_or_default();
    let model = text.lines().find_map(|line| line.strip_prefix("model name")?.split_once(':'));
    model.map_or("a processor that is not named", |(_, name)| name.trim()).to_string()
}

/// How many programs wanted to run in the last minute, on average.
fn load() -> String {
    let text = fs::read_to_string("/proc/loadavg").unwrap_or_default();
    text.split(' ').next().filter(|load| !load.is_empty()).unwrap_or("not known").to_string()
}
