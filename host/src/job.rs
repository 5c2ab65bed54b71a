//! Document 01, One job whole.

use crate::record::{Interval, Job, INTERVAL};
use crate::refusal::{check, Refusal};
use crate::search::{find, Found, Window};
use crate::sight::Sight;

/// What a job answers: document 01's table, or a list. Document 02, wish 3: or a
/// summary, whose days are counted in `intervals`, and for which none is asked.
#[derive(Debug, Clone, Copy, PartialEq, Eq)]
pub struct Answer {
    /// The refusal's number; 0: none.
    pub refusal: u32,
    pub field: u32,
    /// The bits of the number returned.
    pub number: u64,
    pub intervals: u64,
    pub asked: u64,
}

impl Answer {
    /// Every refusal returns 0 intervals and 0 instants asked.
    pub fn refused(refusal: u32, field: u32, number: u64) -> Answer {
        Answer {
            refusal,
            field,
            number,
            intervals: 0,
            asked: 0,
        }
    }
}

impl From<Refusal> for Answer {
    fn from(refusal: Refusal) -> Answer {
        let (refusal, field, number) = refusal.row();
        Answer::refused(refusal, field, number)
    }
}

/// One job whole: any bytes as record, any lent list. Writes the interval
/// records from byte 0 on success, and nothing else.
pub fn list(record: &[u8], list: &mut [u8]) -> Answer {
    match check(record, list.len()) {
        Ok(job) => {
            let Found { intervals, asked } = write(&job, &Sight::of(&job), list);
            Answer {
                refusal: 0,
                field: 0,
                number: 0,
                intervals,
                asked,
            }
        }
        Err(refusal) => refusal.into(),
    }
}

/// Writes the accepted job's intervals one after the other. The room, tested
/// in row 9, is enough: every interval holds a sample with a yes, and between
/// two intervals lies a sample with a no, so there are at most ceil((n+1)/2).
fn write(job: &Job, sight: &Sight, list: &mut [u8]) -> Found {
    let window = Window {
        t0: job.t0,
        t1: job.t1,
        step: u64::from(job.step),
    };
    let mut places = list.chunks_exact_mut(INTERVAL);
    find(
        window,
        |t| sight.answer(t),
        |first, last| {
            let place = places.next().expect("row 9 left room");
            place.copy_from_slice(&interval(job, sight, first, last).encode());
        },
    )
}

/// Document 01, What the desk feeds and gets: flag 1: first = t0; flag 2: last = t1.
///
/// Document 02, wish 1: at any other first 4 if hidden differs from the instant
/// before and 8 if up does; at any other last 16 and 32, from the instant after.
fn interval(job: &Job, sight: &Sight, first: u64, last: u64) -> Interval {
    let at_first = if first == job.t0 {
        1
    } else {
        4 * sight.why(first - 1)
    };
    let at_last = if last == job.t1 {
        2
    } else {
        16 * sight.why(last + 1)
    };
    Interval {
        job: job.job,
        flags: at_first + at_last,
        first,
        last,
    }
}
