//! Document 02, wish 1: why an interval begins and why it ends.
//!
//! The craft is job 7's. Its dish is on the equator and has no least elevation, so
//! that the planet is up from a quarter of the station's turn to three quarters. Greenwich says when that is.

use crate::helpers::*;
use host::record::{Interval, Job};
use host::sight::Sight;

/// The last instant at which the planet does not hide the craft, and the first again.
const BEFORE: u64 = SHADOW[0] - 1;
const AFTER: u64 = SHADOW[1] + 1;

/// Job 7 asked for the visible, where the station has turned by so many degrees at the instant.
fn visible(degrees: f64, t: f64) -> Job {
    let mut job = job7();
    job.question = 2;
    job.fields[11] = degrees - t / STATION_TURN * 360.0;
    job
}

fn always_up() -> Job {
    visible(180.0, 0.0)
}

/// The planet is up from this instant on.
fn rising_at(t: u64) -> Job {
    visible(90.0, t as f64 - 0.5)
}

/// The planet is up to this instant.
fn setting_after(t: u64) -> Job {
    visible(270.0, t as f64 + 0.5)
}

fn intervals(job: Job) -> Vec<Interval> {
    run(&job).1
}

fn within(job: Job, t0: u64, t1: u64) -> Job {
    Job { t0, t1, ..job }
}

#[test]
fn only_hidden_differs() {
    let before = interval(1 + 16, 0, BEFORE);
    let after = interval(4 + 2, AFTER, 7_200_000);
    assert_eq!(intervals(always_up()), [before, after]);
    // A rise or a set in the shadow is not seen.
    assert_eq!(intervals(rising_at(SHADOW[1])), [after]);
    assert_eq!(intervals(rising_at(SHADOW[0])), [after]);
    assert_eq!(intervals(setting_after(SHADOW[0])), [before]);
    assert_eq!(intervals(setting_after(SHADOW[1])), [before]);
}

#[test]
fn only_up_differs() {
    let (rise, set) = (AFTER + 1, BEFORE - 1);
    let (risen, to_set) = (interval(8 + 2, rise, 7_200_000), interval(1 + 32, 0, set));
    assert_eq!(intervals(rising_at(rise)), [risen]);
    assert_eq!(intervals(setting_after(set)), [to_set]);
}

#[test]
fn one_begins_and_the_other_ends() {
    let risen = interval(8 + 16, 1_000_000, BEFORE);
    let after = interval(4 + 2, AFTER, 7_200_000);
    assert_eq!(intervals(rising_at(1_000_000)), [risen, after]);
    let before = interval(1 + 16, 0, BEFORE);
    let to_set = interval(4 + 32, AFTER, 5_000_000);
    assert_eq!(intervals(setting_after(5_000_000)), [before, to_set]);
}

#[test]
fn both_differ_at_a_first() {
    let both = interval(4 + 8 + 2, AFTER, 7_200_000);
    assert_eq!(intervals(rising_at(AFTER)), [both]);
}

#[test]
fn both_differ_at_a_last() {
    let both = interval(1 + 16 + 32, 0, BEFORE);
    assert_eq!(intervals(setting_after(BEFORE)), [both]);
}

#[test]
fn a_first_at_t1_has_its_reasons() {
    let at_t1 = |job| intervals(within(job, SHADOW[0], AFTER));
    let first = |reasons: u32| [interval(reasons + 2, AFTER, AFTER)];
    assert_eq!(at_t1(always_up()), first(4));
    assert_eq!(at_t1(rising_at(AFTER)), first(4 + 8));
    let rising = within(rising_at(1_000_000), 0, 1_000_000);
    assert_eq!(intervals(rising), [interval(8 + 2, 1_000_000, 1_000_000)]);
}

#[test]
fn a_last_at_t0_has_its_reasons() {
    let at_t0 = |job| intervals(within(job, BEFORE, SHADOW[1]));
    let last = |reasons: u32| [interval(1 + reasons, BEFORE, BEFORE)];
    assert_eq!(at_t0(always_up()), last(16));
    assert_eq!(at_t0(setting_after(BEFORE)), last(16 + 32));
    let setting = within(setting_after(5_000_000), 5_000_000, 5_100_000);
    assert_eq!(intervals(setting), [interval(1 + 32, 5_000_000, 5_000_000)]);
}

/// Though both answers differ from those beyond the window.
#[test]
fn the_windows_ends_have_no_reasons() {
    let whole = |job: Job| [interval(1 + 2, job.t0, job.t1)];
    let risen = within(rising_at(AFTER), AFTER, 7_200_000);
    let to_set = within(setting_after(BEFORE), 0, BEFORE);
    let hidden = job7_in(SHADOW[0], SHADOW[1], 600_000);
    for job in [risen, to_set, hidden] {
        assert_eq!(intervals(job), whole(job));
    }
}

/// Though up differs at an end.
#[test]
fn question_1_tells_of_hidden_alone() {
    let [first, last] = SHADOW;
    for (job, low) in [
        (rising_at(first), first - 1),
        (rising_at(last + 1), last),
        (setting_after(first - 1), first - 1),
        (setting_after(last), last),
    ] {
        let station = Sight::of(&job).station;
        assert_ne!(station.up(low), station.up(low + 1));
        let job = Job { question: 1, ..job };
        assert_eq!(intervals(job), [interval(4 + 16, first, last)]);
    }
}

/// The samples, and a halving where a step of 2 ms changes; whatever the reason is.
#[test]
fn reasons_are_not_counted() {
    for job in [always_up(), rising_at(AFTER), rising_at(AFTER + 2)] {
        let around = within(job, AFTER - 11, AFTER + 9);
        assert_eq!(run(&Job { step: 1, ..around }).0, listed(1, 21));
        assert_eq!(run(&Job { step: 2, ..around }).0, listed(1, 11 + 1));
    }
    assert_eq!(run(&job7()).0, listed(1, ASKED));
}
