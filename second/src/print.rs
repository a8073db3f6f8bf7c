//! The print of an outcome, line by line as document 01 shows it ("Jobs to try"), and that of a map.

use crate::job::{u16_at, Job};
use crate::map;
use crate::plan::{Outcome, Sheet};

pub fn print(outcome: &Outcome) -> String {
    match outcome {
        Outcome::Planned(sheet) => print_sheet(sheet),
        Outcome::NoFit(count) => format!("no fit at count {count}\n"),
        Outcome::Refused(refusal) => format!("refused {} row {}\n", refusal.reason, refusal.row),
    }
}

fn print_sheet(sheet: &Sheet) -> String {
    let mut text = format!("worth {}\n", sheet.worth);
    for (i, row) in sheet.counts.iter().enumerate() {
        let (number, base, step, group) = (row.number, row.base, row.step, row.group);
        text += &format!("count {i} number {number} base {base} step {step} group {group}\n");
    }
    for (g, row) in sheet.groups.iter().enumerate() {
        text += &format!("group {g} fits {} at {} gain {}\n", row.fits, row.at, row.gain);
    }
    text
}

pub fn print_map(job: &Job) -> String {
    let map = map::bytes(job);
    let (n, m) = (job.counts.len(), job.equations.len());
    let mut text = format!("map counts {} equations {} groups {}\n", u16_at(&map, 4), u16_at(&map, 6), u16_at(&map, 16));
    for (i, at) in (0..n).map(|i| (i, 24 + 4 * i)) {
        text += &format!("map count {i} group {} equations {}\n", u16_at(&map, at), u16_at(&map, at + 2));
    }
    for (k, at) in (0..m).map(|k| (k, 24 + 4 * (n + k))) {
        let kind = ["joins", "ring", "fixes"][u16_at(&map, at + 2) - 1];
        text += &format!("map equation {k} group {} kind {kind}\n", u16_at(&map, at));
    }
    text
}
