//! Document 02, wish 3: totals by day beside the list.

use crate::job::Answer;
use crate::record::{Interval, Job, Total, INTERVAL, TOTAL};
use crate::refusal::{self, refuse_if, room_for, Refusal, MOST_STEPS};
use std::ops::RangeInclusive;

/// A day, ms; the epoch begins day 0.
pub const DAY: u64 = 86_400_000;

/// The summary of a list: any bytes as record and as list, any lent summary. Writes a
/// record for each day that the window touches from byte 0 on success, and nothing else.
pub fn days(record: &[u8], list: &[u8], summary: &mut [u8]) -> Answer {
    match check(record, list, summary.len()) {
        Ok(Summed { totals, .. }) => {
            write(&totals, summary);
            answer(&totals)
        }
        Err(refusal) => refusal.into(),
    }
}

/// The list's summary becomes that of the longer list, with the interval behind all
/// others: any bytes as either. Writes the days that the interval touches, and nothing else.
pub fn append(record: &[u8], list: &[u8], interval: &[u8], summary: &mut [u8]) -> Answer {
    match check_appended(record, list, interval, summary) {
        Ok((mut summed, interval)) => {
            summed.add(&interval);
            let touched = summed.touched(&interval);
            let at = TOTAL * touched.start();
            write(&summed.totals[touched], &mut summary[at..]);
            answer(&summed.totals)
        }
        Err(refusal) => refusal.into(),
    }
}

/// The job's own refusals, then 11, then 12 for the list.
fn check(record: &[u8], list: &[u8], room: usize) -> Result<Summed, Refusal> {
    // 9 only where a list is written: here there is room for any.
    let job = refusal::check(record, room_for(MOST_STEPS) as usize)?;
    let mut summed = Summed::nothing(job);
    refuse_if(room < TOTAL * summed.totals.len(), Refusal::SummaryRoom)?;
    for piece in list.chunks(INTERVAL) {
        let interval = summed.next(piece)?;
        summed.add(&interval);
    }
    Ok(summed)
}

/// What `check` refuses, then 12 for the interval and for the summary.
fn check_appended(
    record: &[u8],
    list: &[u8],
    interval: &[u8],
    summary: &[u8],
) -> Result<(Summed, Interval), Refusal> {
    let summed = check(record, list, summary.len())?;
    let interval = summed.next(interval)?;
    let lent = summary.chunks(TOTAL).map(Total::decode);
    let mut pairs = lent.zip(&summed.totals);
    let is_the_lists = pairs.all(|(lent, total)| lent == Some(*total));
    refuse_if(!is_the_lists, Refusal::List)?;
    Ok((summed, interval))
}

/// The good intervals so far, added up.
struct Summed {
    job: Job,
    /// Where the latest of them ends.
    last: Option<u64>,
    /// One for each day that the window touches, in order.
    totals: Vec<Total>,
}

impl Summed {
    fn nothing(job: Job) -> Summed {
        let none = |day| Total {
            day: day as u32, // 31 at most
            intervals: 0,
            instants: 0,
        };
        Summed {
            job,
            last: None,
            totals: (job.t0 / DAY..=job.t1 / DAY).map(none).collect(),
        }
    }

    /// The piece's interval, if it is a whole record and good behind the others: 12 with last
    /// before first, outside the window or under two instants after the one before.
    fn next(&self, piece: &[u8]) -> Result<Interval, Refusal> {
        let interval = Interval::decode(piece).ok_or(Refusal::List)?;
        let Interval { first, last, .. } = interval;
        refuse_if(last < first, Refusal::List)?;
        refuse_if(first < self.job.t0 || self.job.t1 < last, Refusal::List)?;
        // The one before is in the window, so the sum does not wrap.
        let too_near = self.last.is_some_and(|before| first < before + 2);
        refuse_if(too_near, Refusal::List)?;
        Ok(interval)
    }

    /// The places of the days that a good interval touches.
    fn touched(&self, interval: &Interval) -> RangeInclusive<usize> {
        let place = |t: u64| (t / DAY - self.job.t0 / DAY) as usize;
        place(interval.first)..=place(interval.last)
    }

    /// To each day that a good interval touches, what it has of that day. Over each midnight goes
    /// at most one interval: a list's touch fewer days than there are intervals and days.
    fn add(&mut self, interval: &Interval) {
        let touched = self.touched(interval);
        for total in &mut self.totals[touched] {
            let begins = u64::from(total.day) * DAY;
            let first = interval.first.max(begins);
            let last = interval.last.min(begins + DAY - 1);
            total.intervals += 1;
            total.instants += last - first + 1;
        }
        self.last = Some(interval.last);
    }
}

fn write(totals: &[Total], summary: &mut [u8]) {
    for (place, total) in summary.chunks_exact_mut(TOTAL).zip(totals) {
        place.copy_from_slice(&total.encode());
    }
}

fn answer(totals: &[Total]) -> Answer {
    Answer {
        refusal: 0,
        field: 0,
        number: 0,
        intervals: totals.len() as u64,
        asked: 0,
    }
}
