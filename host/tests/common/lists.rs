//! Lists to add up by day: our own, good ones that no finder of ours made, and damaged ones.

use super::jobs::{self, over, DAY, LONGEST_LIST, LONGEST_STEP, MONTH};
use super::random::Random;
use host::record::{Interval, Job, INTERVAL, TOTAL};
use std::iter;

/// Bytes of room for any summary.
pub const LONGEST_SUMMARY: usize = TOTAL * (MONTH / DAY + 1) as usize;

/// Bytes of the summary of any of the job's lists.
pub fn need(job: &Job) -> usize {
    TOTAL * (job.t1 / DAY - job.t0 / DAY + 1) as usize
}

pub fn bytes(list: &[Interval]) -> Vec<u8> {
    list.iter().flat_map(Interval::encode).collect()
}

/// The record's own list, as the independent implementation makes it.
pub fn own(record: &[u8]) -> Vec<u8> {
    let mut list = vec![0; LONGEST_LIST];
    let intervals = host::list(record, &mut list).intervals as usize;
    list.truncate(INTERVAL * intervals);
    list
}

/// The list's summary, as the independent implementation makes it; empty where that refuses.
pub fn summary(record: &[u8], list: &[u8]) -> Vec<u8> {
    let mut summary = vec![0; LONGEST_SUMMARY];
    let days = host::days(record, list, &mut summary).intervals as usize;
    summary.truncate(TOTAL * days);
    summary
}

/// An instant from `from` to `to`: near the former, at or beside a midnight, or anywhere.
fn instant(random: &mut Random, from: u64, to: u64) -> u64 {
    let midnight = DAY * random.between(from / DAY, to / DAY + 1);
    let choices = [
        from + random.below(2),
        from + random.below(5_000),
        midnight.saturating_sub(1),
        midnight,
        midnight + 1,
        random.between(from, to),
    ];
    random.one_of(&choices).clamp(from, to)
}

/// A plausible job over a window that begins and ends anywhere, often beside a midnight.
pub fn job(random: &mut Random) -> Job {
    let t0 = instant(random, 0, MONTH - 1);
    let t1 = instant(random, t0 + 1, MONTH);
    over(jobs::any(random), t0, t1, LONGEST_STEP)
}

/// A good list of at most so many intervals, with job numbers and flags of its own.
pub fn good(random: &mut Random, job: &Job, most: u64) -> Vec<Interval> {
    let mut list = vec![];
    let mut from = job.t0;
    for _ in 0..random.between(0, most) {
        if from <= job.t1 {
            let first = not_far(random, from, job.t1);
            let last = not_far(random, first, job.t1);
            list.push(foreign(random, first, last));
            from = last + 2;
        }
    }
    list
}

/// An instant from `from` to `to`, and mostly so that there is room for others behind it.
fn not_far(random: &mut Random, from: u64, to: u64) -> u64 {
    let length = random.one_of(&[1, 1, 30, 30, 5_000, DAY / 5, DAY, 3 * DAY]);
    instant(random, from, to.min(from + length))
}

pub fn foreign(random: &mut Random, first: u64, last: u64) -> Interval {
    Interval {
        job: random.bits() as u32,
        flags: random.bits() as u32,
        first,
        last,
    }
}

/// The interval that is but an instant.
pub fn at(instant: u64) -> Interval {
    Interval {
        job: 0,
        flags: 0,
        first: instant,
        last: instant,
    }
}

/// As many intervals as there can be, each of one instant.
pub fn every_second_instant(job: &Job) -> Vec<Interval> {
    (job.t0..=job.t1).step_by(2).map(at).collect()
}

/// A window over a midnight, so short that all its lists can be tried.
pub const SHORT_WINDOW: (u64, u64) = (DAY - 3, DAY + 2);

/// Firsts and lasts in that window, beside it and far from it, each with each.
pub fn about_the_short_window() -> Vec<(u64, u64)> {
    let far = [0, MONTH, 1 << 32, 1 << 63, u64::MAX - 1, u64::MAX];
    let ends = || (DAY - 5..=DAY + 4).chain(far);
    let with_each = |first| ends().map(move |last| (first, last));
    ends().flat_map(with_each).collect()
}

/// What can be wrong with an interval, by itself or behind the one before.
#[derive(Debug, Clone, Copy, PartialEq, Eq)]
pub enum Fault {
    Backwards,
    BeginsBeforeTheWindow,
    EndsAfterTheWindow,
    AfterTheWindow,
    TooNear,
}

pub const FAULTS: [Fault; 5] = [
    Fault::Backwards,
    Fault::BeginsBeforeTheWindow,
    Fault::EndsAfterTheWindow,
    Fault::AfterTheWindow,
    Fault::TooNear,
];

/// A job and a good list with two intervals or more, to be spoilt: no fault is out of reach.
pub fn to_spoil(random: &mut Random) -> (Job, Vec<Interval>) {
    let mut pairs = iter::repeat_with(|| {
        let job = job(random);
        let list = good(random, &job, 8);
        (job, list)
    });
    let suits = |(job, list): &(Job, Vec<Interval>)| job.t0 > 0 && list.len() > 1;
    pairs.find(suits).unwrap()
}

/// Spoils one interval of the list, and tells which. Those before it stay good.
pub fn spoil(random: &mut Random, job: &Job, list: &mut [Interval], fault: Fault) -> usize {
    let end = list.len() - 1;
    let anywhere = random.between(1, end as u64) as usize;
    let at = match fault {
        Fault::Backwards | Fault::TooNear => anywhere,
        Fault::BeginsBeforeTheWindow => 0,
        Fault::EndsAfterTheWindow | Fault::AfterTheWindow => random.one_of(&[anywhere, end]),
    };
    let before = list[at.saturating_sub(1)].last;
    let beyond = beyond(random, job);
    let Interval { first, last, .. } = list[at];
    (list[at].first, list[at].last) = match fault {
        Fault::Backwards if first < last => (last, first),
        Fault::Backwards => (first, first - 1),
        Fault::BeginsBeforeTheWindow => (random.one_of(&[0, job.t0 - 1]), last),
        Fault::EndsAfterTheWindow => (first, beyond),
        Fault::AfterTheWindow => (random.one_of(&[job.t1 + 1, beyond]), beyond),
        Fault::TooNear => (random.one_of(&[job.t0, before, before + 1]), last),
    };
    at
}

fn beyond(random: &mut Random, job: &Job) -> u64 {
    let near = [job.t1 + 1, job.t1 + 2, 1 << 32];
    let huge = [(1 << 63) - 1, 1 << 63, u64::MAX - 1, u64::MAX];
    random.one_of(&[&near[..], &huge].concat())
}
