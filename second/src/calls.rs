//! Calls the planner's archive on many pseudo-random jobs, amendments and areas, and compares the outcome and both areas, byte for
//! byte, with what this planner says that the call gives.

use std::path::Path;
use std::{fs, io};

use crate::amendments::{self, amended};
use crate::archive::{self, Checked};
use crate::call;
use crate::compare::FOLDER;
use crate::fence::Fence;
use crate::job::{self, Job, Refusal};
use crate::kinds::{self, KINDS};
use crate::lent::{Call, MOST_AMENDMENT_BYTES, MOST_AREA, MOST_GAP, MOST_JOB};
use crate::plan::Outcome;
use crate::stop;
use crate::tally::Tally;

/// Compare on so many calls, up to the first difference; whether all is well. The last line says what was done.
pub fn calls(seed: u64, calls: u64, first: u64) -> io::Result<bool> {
    let mut fences = Fences::new()?;
    let mut tally = Tally::new(&KINDS);
    stop::watch("calls");
    for number in first..first + calls {
        stop::at(seed, number);
        let call = Call::new(seed, number);
        let wanted = Wanted::of(&call);
        let found = fences.differences(&call, &wanted);
        if !found.is_empty() {
            println!("second: seed {seed}, call {number} DIFFERS; to run it again: second calls {seed} 1 {number}");
            show(number, &call, &found)?;
            return Ok(false);
        }
        kinds::note(&mut tally, &call, &wanted.outcome, &wanted.map);
    }
    Ok(tally.report(seed, calls, "calls of the archive"))
}

/// What a call is to give: the outcome, and both areas afterwards.
struct Wanted {
    outcome: Outcome,
    area: Vec<u8>,
    map: Vec<u8>,
}

impl Wanted {
    fn of(call: &Call) -> Wanted {
        let (mut area, mut map) = (call.area().to_vec(), call.map().to_vec());
        let map_area = call.map_is_lent().then_some(&mut map[..]);
        let outcome = call::call(call.job(), call.amendments(), &mut area, map_area);
        Wanted { outcome, area, map }
    }
}

/// The buffers of a call, used again by the next.
struct Fences {
    job: Fence,
    amendments: Fence,
    area: Fence,
    map: Fence,
}

impl Fences {
    fn new() -> io::Result<Fences> {
        let fence = |most| Fence::new(most + MOST_GAP);
        let (job, amendments) = (fence(MOST_JOB)?, fence(MOST_AMENDMENT_BYTES)?);
        Ok(Fences { job, amendments, area: fence(MOST_AREA)?, map: fence(MOST_AREA)? })
    }

    /// Call the archive, to plan and to check, and say in words what is not as wanted.
    fn differences(&mut self, call: &Call, wanted: &Wanted) -> Vec<String> {
        self.job.lay(call.job(), call.gaps[0]);
        self.amendments.lay(call.amendments(), call.gaps[1]);
        self.area.lay(call.area(), call.gaps[2]);
        self.map.lay(call.map(), call.gaps[3]);
        let job = call.job.is_some().then_some(self.job.bytes());
        let amendments = call.amendments.is_some().then_some(self.amendments.bytes());
        let area = call.area.is_some().then_some(self.area.bytes_mut());
        let map = call.map.is_some().then_some(self.map.bytes_mut());
        let mut found = Vec::new();
        let (given, outcome) = (archive::plan(job, amendments, area, map, call.lent), fields(&wanted.outcome));
        if given != outcome {
            found.push(format!("the outcome is {}, and {} is wanted", words(&given), words(&outcome)));
        }
        for (name, given, wanted) in [
            ("the job check", archive::check(job), job::read(call.job())),
            (
                "the check with amendments",
                archive::check_amendments(job, amendments),
                amended(call.job(), call.amendments()),
            ),
        ] {
            let wanted = checked(&wanted);
            if given != wanted {
                found.push(format!("{name} gives {given:?}, and {wanted:?} is wanted"));
            }
        }
        let fences = [&self.job, &self.amendments, &self.area, &self.map];
        let wanted = [call.job(), call.amendments(), &wanted.area, &wanted.map];
        for ((fence, wanted), layout) in fences.into_iter().zip(wanted).zip(layouts(call.job(), call.amendments())) {
            found.extend(changed(fence, wanted, &layout));
        }
        found
    }
}

/// The outcome as the archive's entry gives it.
fn fields(outcome: &Outcome) -> archive::Outcome {
    let none = archive::Outcome::default();
    match outcome {
        Outcome::Planned(sheet) => archive::Outcome { kind: 1, worth: sheet.worth, ..none },
        Outcome::NoFit(count) => archive::Outcome { kind: 2, count: *count as u32, ..none },
        Outcome::Refused(refusal) => {
            archive::Outcome { kind: 3, reason: refusal.reason.into(), row: refusal.row as u32, ..none }
        }
    }
}

fn words(outcome: &archive::Outcome) -> String {
    let archive::Outcome { kind, count, reason, row, worth } = outcome;
    let name = ["planned", "no fit", "refused"].get((*kind as usize).wrapping_sub(1)).unwrap_or(&"of no kind");
    format!("{name} (kind {kind}, count {count}, reason {reason}, row {row}, worth {worth})")
}

fn checked(answer: &Result<Job, Refusal>) -> Checked {
    match answer {
        Ok(_) => Checked::default(),
        Err(refusal) => Checked { reason: refusal.reason.into(), row: refusal.row as u32 },
    }
}

/// The name of a buffer, and what stands in it: a header of some bytes, and then rows of one name or more, with how many there are of
/// each, and their lengths.
struct Layout {
    name: &'static str,
    header: usize,
    rows: Vec<(&'static str, usize, usize)>,
}

/// Those of the job, the amendments, the answer area and the map area. Of a job that is no job, headers alone.
fn layouts(bytes: &[u8], amendments: &[u8]) -> [Layout; 4] {
    let (n, m, g) = job::read(bytes).map_or((0, 0, 0), |job| {
        let n = job.counts.len();
        (n, job.equations.len(), (call::sheet_length(&job) - 24) / 16 - n)
    });
    let layout = |name, first, second| Layout { name, header: 24, rows: vec![first, second] };
    let row = amendments::ROW;
    [
        layout("job", ("count row", n, 12), ("equation row", m, 20)),
        Layout { name: "amendments", header: 0, rows: vec![("amendment", amendments.len() / row, row)] },
        layout("answer area", ("count row", n, 16), ("group row", g, 16)),
        layout("map area", ("count row", n, 4), ("equation row", m, 4)),
    ]
}

/// What in a buffer, or around it, is not as wanted.
fn changed(fence: &Fence, wanted: &[u8], layout: &Layout) -> Vec<String> {
    let (name, given) = (layout.name, fence.bytes());
    let mut found = Vec::new();
    if given != wanted {
        let all: Vec<usize> = (0..wanted.len()).filter(|&at| given[at] != wanted[at]).collect();
        let at = all[0];
        found.push(format!(
            "{} of {} bytes of the {name} differ, first byte {at} ({}): it is {}, and {} is wanted",
            all.len(),
            wanted.len(),
            place(at, layout),
            given[at],
            wanted[at]
        ));
    }
    if !fence.is_whole() {
        found.push(format!("bytes next to the {name}, which are not part of it, are changed"));
    }
    found
}

/// The part that a byte belongs to.
fn place(at: usize, layout: &Layout) -> String {
    let mut start = layout.header;
    if at < start {
        return "in the header".to_string();
    }
    for &(name, many, length) in &layout.rows {
        if at < start + many * length {
            return format!("byte {} of {name} {}", (at - start) % length, (at - start) / length);
        }
        start += many * length;
    }
    "past the last row".to_string()
}

/// Print the call and what was found, and keep the bytes of the job and of its amendments.
fn show(number: u64, call: &Call, found: &[String]) -> io::Result<()> {
    fs::create_dir_all(FOLDER)?;
    let file = Path::new(FOLDER).join(format!("call-{number}.job"));
    fs::write(&file, call.job())?;
    fs::write(file.with_extension("amendments"), call.amendments())?;
    let bytes = |name, bytes: &Option<Vec<u8>>| match bytes {
        Some(bytes) => format!("{name} of {} bytes", bytes.len()),
        None => format!("{name} null"),
    };
    let (job, amendments) = (bytes("job", &call.job), bytes("amendments", &call.amendments));
    let (area, map) = (bytes("answer area", &call.area), bytes("map area", &call.map));
    let lent = if call.map_is_lent() { "lent" } else { "not lent" };
    println!("  {job}; {amendments}; {area}; {map}, {lent} ({:#x})", call.lent);
    println!("  job and amendments are {} and .amendments beside it", file.display());
    found.iter().for_each(|text| println!("  {text}"));
    Ok(())
}

#[cfg(test)]
mod tests {
    use super::*;
    use crate::job::{Count, Equation};

    /// Two counts and an equation: a map of 36 bytes, in an area of 40.
    #[test]
    fn places() {
        let counts = vec![Count { low: 0, high: 9, weight: 0 }; 2];
        let job = Job { counts, equations: vec![Equation { left: 0, right: 1, a: 1, b: 1, c: 9 }] };
        let [of_job, of_amendments, of_area, of_map] = &layouts(&job::write(&job), &[0; 45]);
        assert_eq!([place(23, of_map), place(36, of_map)], ["in the header", "past the last row"]);
        assert_eq!([place(24, of_map), place(33, of_map)], ["byte 0 of count row 0", "byte 1 of equation row 0"]);
        assert_eq!([place(47, of_job), place(48, of_job)], ["byte 11 of count row 1", "byte 0 of equation row 0"]);
        assert_eq!([place(71, of_area), place(72, of_area)], ["byte 15 of group row 0", "past the last row"]);
        assert_eq!([place(0, of_amendments), place(40, of_amendments)], ["byte 0 of amendment 0", "past the last row"]);
        let mut fence = Fence::new(40).expect("a mapping");
        fence.lay(&[7; 40], 0);
        assert!(changed(&fence, &[7; 40], of_map).is_empty());
        fence.bytes_mut()[36] = 0;
        let wanted = "1 of 40 bytes of the map area differ, first byte 36 (past the last row): it is 0, and 7 is wanted";
        assert_eq!(changed(&fence, &[7; 40], of_map), [wanted]);
    }
}
