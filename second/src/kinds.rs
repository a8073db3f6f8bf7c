//! The kinds of planning calls that the sweep is to have, and of which kinds a call is.

use crate::amendments::{self, amended, cases};
use crate::call::sheet_length;
use crate::fixes;
use crate::job::{self, Job};
use crate::lent::Call;
use crate::map;
use crate::plan::Outcome;
use crate::tally::{Part, Tally};

/// With each, in how many calls there is to be one at least. Lengths are told of lawful jobs with lawful amendments only, rows of maps
/// that are written.
pub const KINDS: [Part; 11] = [
    ("outcomes", &[("planned", 4), ("no fit", 15), ("refused", 4), ("no fit with a map", 30), ("planned with a map", 8)]),
    (
        "refused",
        &[
            ("for 1", 100),
            ("for 2", 200),
            ("for 3", 200),
            ("for 4", 100),
            ("for 5", 100),
            ("for 6", 100),
            ("for 7", 100),
            ("for 8", 8),
            ("for 10", 15),
            ("for 11", 60),
            ("for 12", 60),
            ("for 13", 300),
            ("for 8 with the map short too", 50),
            ("for 10 with the area exact", 50),
        ],
    ),
    (
        "answer areas",
        &[("exact area", 4), ("longer area", 10), ("area one short", 20), ("empty area", 100), ("another short area", 50)],
    ),
    (
        "map areas",
        &[
            ("exact map", 5),
            ("longer map", 10),
            ("map one short", 20),
            ("empty map", 100),
            ("another short map", 50),
            ("not lent", 8),
            ("not lent with bytes", 10),
            ("not lent, short and not refused", 50),
        ],
    ),
    (
        "null and noise",
        &[
            ("null job", 500),
            ("null area", 200),
            ("null map lent", 200),
            ("null map not lent", 500),
            ("noise in lent", 5),
            ("a gap", 5),
        ],
    ),
    (
        "amendments",
        &[
            ("null amendments", 8),
            ("empty amendments", 8),
            ("amendments at an odd address", 30),
            ("faults of a job and of its amendments", 80),
            ("faults of amendments with the area short", 100),
            ("faults of amendments with the map short", 150),
            ("faults of amendments with no fit", 200),
        ],
    ),
    cases::TAKEN,
    cases::PLACES,
    cases::FAULTS,
    (
        "maps with",
        &[
            ("kind 1 alone", 50),
            ("kind 3 alone", 50),
            ("kinds 1 and 2", 12),
            ("all three kinds", 20),
            ("kind 1 after kind 2", 20),
            ("kind 1 after kind 3", 20),
            ("kind 2 after kind 3", 30),
            ("kind 3 after kind 1", 20),
            ("kind 3 after kind 2", 30),
            ("a group not numbered as its lowest count", 20),
            ("n = 0", 100),
            ("m = 0", 20),
            ("m = 0 and counts", 50),
            ("256 counts", 300),
            ("1,024 equations", 300),
            ("a full frame", 500),
            ("a full frame with kind 3", 1_000),
        ],
    ),
    fixes::CASES,
];

/// Count a call, by what it is given and what it gives: the outcome, and the map area afterwards.
pub fn note(tally: &mut Tally, call: &Call, outcome: &Outcome, map: &[u8]) {
    match outcome {
        Outcome::Planned(_) => tally.add("planned"),
        Outcome::NoFit(_) => tally.add("no fit"),
        Outcome::Refused(refusal) => {
            tally.add("refused");
            tally.add(&format!("for {}", refusal.reason));
        }
    }
    tally.add_if(call.job.is_none(), "null job");
    tally.add_if(call.area.is_none(), "null area");
    tally.add_if(call.map.is_none() && call.map_is_lent(), "null map lent");
    tally.add_if(call.map.is_none() && !call.map_is_lent(), "null map not lent");
    tally.add_if(call.lent > 1, "noise in lent");
    tally.add_if(call.gaps != [0; 4], "a gap");
    note_amendments(tally, call, outcome);
    let Ok(job) = amended(call.job(), call.amendments()) else { return };
    note_lengths(tally, call, &job, outcome);
    if !matches!(outcome, Outcome::Refused(_)) {
        fixes::cases(&job, outcome).into_iter().for_each(|case| tally.add(case));
        if call.map_is_lent() {
            tally.add_if(matches!(outcome, Outcome::NoFit(_)), "no fit with a map");
            tally.add_if(matches!(outcome, Outcome::Planned(_)), "planned with a map");
            note_map(tally, &job, map);
        }
    }
}

/// How the amendments come, and what other faults stand beside theirs.
fn note_amendments(tally: &mut Tally, call: &Call, outcome: &Outcome) {
    let bytes = call.amendments();
    tally.add_if(call.amendments.is_none(), "null amendments");
    tally.add_if(call.amendments.as_ref().is_some_and(Vec::is_empty), "empty amendments");
    tally.add_if(!bytes.is_empty() && (bytes.len() + call.gaps[1]) % 2 == 1, "amendments at an odd address");
    cases::cases(call.job(), bytes, outcome).into_iter().for_each(|case| tally.add(case));
    let Ok(job) = job::read(call.job()) else {
        return tally.add_if(amendments::read(bytes, job::MOST_COUNTS).is_err(), "faults of a job and of its amendments");
    };
    if amended(call.job(), bytes).is_err() {
        tally.add_if(call.area().len() < sheet_length(&job), "faults of amendments with the area short");
        tally.add_if(call.map_is_lent() && call.map().len() < map::length(&job), "faults of amendments with the map short");
        let no_fit = job.counts.iter().any(|count| count.low > count.high);
        tally.add_if(no_fit, "faults of amendments with no fit");
    }
}

/// Of a lawful job: how long the areas are.
fn note_lengths(tally: &mut Tally, call: &Call, job: &Job, outcome: &Outcome) {
    let (area, sheet) = (call.area().len(), sheet_length(job));
    tally.add(["exact area", "longer area", "area one short", "empty area", "another short area"][compared(area, sheet)]);
    let (map, exact) = (call.map().len(), map::length(job));
    if call.map_is_lent() {
        tally.add(["exact map", "longer map", "map one short", "empty map", "another short map"][compared(map, exact)]);
        tally.add_if(area < sheet && map < exact, "for 8 with the map short too");
        tally.add_if(area == sheet && map < exact, "for 10 with the area exact");
    } else {
        let refused = matches!(outcome, Outcome::Refused(_));
        tally.add("not lent");
        tally.add_if(map > 0, "not lent with bytes");
        tally.add_if(map < exact && !refused, "not lent, short and not refused");
    }
}

/// 0 if the length is exact, 1 longer, 2 one short, 3 nothing, 4 short otherwise.
fn compared(length: usize, exact: usize) -> usize {
    match length {
        _ if length == exact => 0,
        _ if length > exact => 1,
        _ if length == exact - 1 => 2,
        0 => 3,
        _ => 4,
    }
}

/// Of a map that is written: its size and its rows, read from its bytes.
fn note_map(tally: &mut Tally, job: &Job, map: &[u8]) {
    let (n, m) = (job.counts.len(), job.equations.len());
    let rows: Vec<(u16, u16)> = map[24..24 + 4 * (n + m)]
        .chunks(4)
        .map(|row| (u16::from_le_bytes([row[0], row[1]]), u16::from_le_bytes([row[2], row[3]])))
        .collect();
    let (counts, equations) = rows.split_at(n);
    let kinds: Vec<u16> = equations.iter().map(|row| row.1).collect();
    let [one, two, three] = [1, 2, 3].map(|kind| kinds.contains(&kind));
    tally.add_if(one && !two && !three, "kind 1 alone");
    tally.add_if(three && !one, "kind 3 alone");
    tally.add_if(one && two, "kinds 1 and 2");
    tally.add_if(one && two && three, "all three kinds");
    for (rows, name) in [
        ([2, 1], "kind 1 after kind 2"),
        ([3, 1], "kind 1 after kind 3"),
        ([3, 2], "kind 2 after kind 3"),
        ([1, 3], "kind 3 after kind 1"),
        ([2, 3], "kind 3 after kind 2"),
    ] {
        tally.add_if(kinds.windows(2).any(|two| two == rows), name);
    }
    let renumbered = |row: &(u16, u16)| counts.iter().position(|other| other.0 == row.0) != Some(row.0.into());
    tally.add_if(counts.iter().any(renumbered), "a group not numbered as its lowest count");
    tally.add_if(n == 0, "n = 0");
    tally.add_if(m == 0, "m = 0");
    tally.add_if(m == 0 && n > 0, "m = 0 and counts");
    tally.add_if(n == job::MOST_COUNTS, "256 counts");
    tally.add_if(m == job::MOST_EQUATIONS, "1,024 equations");
    let full = n == job::MOST_COUNTS && m == job::MOST_EQUATIONS;
    tally.add_if(full, "a full frame");
    tally.add_if(full && three, "a full frame with kind 3");
}
