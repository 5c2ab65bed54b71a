//! Document 01, One job whole: the small program, without its reading and writing;
//! and the one that writes document 02's totals by day, wish 3.

use crate::days::{days, DAY};
use crate::job::{list, Answer};
use crate::record::{Interval, Job, INTERVAL, ORBIT, TOTAL};
use crate::refusal::{room_for, LATEST, MOST_STEPS};

/// The flags of a job's closing record; a refusal's has its number added.
pub const LISTED: u32 = 512;
pub const REFUSED: u32 = 256;

/// The bytes the program writes for a whole input: for each record its
/// intervals and a closing record. A short piece at the end is refusal 1 with
/// job 0, as its length isn't 136.
pub fn program(input: &[u8]) -> Vec<u8> {
    let mut output = Vec::new();
    // Room for the most steps is enough for any job.
    let mut room = vec![0; room_for(MOST_STEPS) as usize];
    for piece in input.chunks(ORBIT) {
        let answer = list(piece, &mut room);
        output.extend_from_slice(&room[..answer.intervals as usize * INTERVAL]);
        output.extend_from_slice(&closing(number(piece), &answer).encode());
    }
    output
}

/// The bytes the program `totals` writes for a whole input: for each record a head and its
/// list's summary. The head is as the list's closing record, but first = days; a refused
/// job's is the same.
pub fn totals(input: &[u8]) -> Vec<u8> {
    let mut output = Vec::new();
    let mut room = vec![0; room_for(MOST_STEPS) as usize];
    // The latest window's end begins a day.
    let mut summary = vec![0; TOTAL * (LATEST / DAY + 1) as usize];
    for piece in input.chunks(ORBIT) {
        let listed = list(piece, &mut room);
        let written = &room[..listed.intervals as usize * INTERVAL];
        let intervals = days(piece, written, &mut summary).intervals;
        let head = Answer {
            intervals,
            ..listed
        };
        output.extend_from_slice(&closing(number(piece), &head).encode());
        output.extend_from_slice(&summary[..intervals as usize * TOTAL]);
    }
    output
}

/// The job number that an answer is given under: a short piece has none.
fn number(piece: &[u8]) -> u32 {
    Job::decode(piece).map_or(0, |job| job.job)
}

/// Flags 512, first = intervals, last = instants asked; or flags 256 + number,
/// first = field, last 0.
pub fn closing(job: u32, answer: &Answer) -> Interval {
    if answer.refusal == 0 {
        Interval {
            job,
            flags: LISTED,
            first: answer.intervals,
            last: answer.asked,
        }
    } else {
        Interval {
            job,
            flags: REFUSED + answer.refusal,
            first: u64::from(answer.field),
            last: 0,
        }
    }
}
