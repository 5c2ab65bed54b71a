//! Document 02, wish 3: refusals 11 and 12, after the job's own, for the summary of a list.
//! What `summary_of` is lent keeps every byte with each of them.

use crate::common::jobs::refused_jobs;
use crate::common::lists::{self, FAULTS};
use crate::helpers::*;
use host::record::{INTERVAL, TOTAL};
use host::Answer;

pub const ROOM_SHORT: Answer = Answer {
    refusal: 11,
    field: 0,
    number: 0,
    intervals: 0,
    asked: 0,
};

pub const NOT_GOOD: Answer = Answer {
    refusal: 12,
    ..ROOM_SHORT
};

#[test]
fn the_jobs_own_come_first() {
    let bad = [KEPT; INTERVAL + 1];
    for (record, answer) in refused_jobs() {
        for room in [0, 15, 512] {
            assert_eq!(summary_of(&record, &bad, room).0, answer);
            assert_eq!(summary_of(&record, &[], room).0, answer);
        }
    }
    let job = job7();
    assert_eq!(summary_of(&job.encode(), &bad, 15).0, ROOM_SHORT);
    assert_eq!(summary_of(&job.encode(), &bad, 16).0, NOT_GOOD);
}

/// No list is written, so the room that one would need is not asked for.
#[test]
fn never_9() {
    let most_steps = job7_in(0, 4096, 1);
    assert_eq!(
        summary_of(&most_steps.encode(), &[], 16),
        (summed(1), vec![total(0, 0, 0)])
    );
}

#[test]
fn refusal_11_room_short_of_16_bytes_a_day() {
    for (t1, days) in [(DAY - 1, 1), (DAY, 2), (MONTH - 1, 31), (MONTH, 32)] {
        let record = job7_over(0, t1).encode();
        let list = bytes_of(&[(0, t1)]);
        for room in 0..=16 * days + 40 {
            let (answer, totals) = summary_of(&record, &list, room);
            if room < 16 * days {
                assert_eq!(answer, ROOM_SHORT);
            } else {
                assert_eq!((answer, totals.len()), (summed(days), days));
            }
        }
    }
}

#[test]
fn refusal_12_not_whole_records() {
    let list = bytes_of(&[(0, 10), (12, 20), (30, 40), (50, 60)]);
    for length in 0..=list.len() {
        let answer = summary_of(&job7().encode(), &list[..length], 16).0;
        let whole = length % 24 == 0;
        assert_eq!(answer, if whole { summed(1) } else { NOT_GOOD }, "{length}");
    }
}

const T0: u64 = 3 * DAY - 1_000;
const T1: u64 = 3 * DAY + 1_000;

/// Whether this is a good list of the window from T0 to T1: 12 where it is not.
fn is_good(list: &[(u64, u64)]) -> bool {
    let record = job7_over(T0, T1).encode();
    let answer = summary_of(&record, &bytes_of(list), 2 * TOTAL).0;
    assert!([summed(2), NOT_GOOD].contains(&answer), "{answer:?}");
    answer.refusal == 0
}

#[test]
fn refusal_12_last_before_first() {
    assert!(is_good(&[(T0 + 9, T0 + 9)]));
    assert!(!is_good(&[(T0 + 9, T0 + 8)]));
    assert!(!is_good(&[(T1, T0)]));
    assert!(!is_good(&[(T0 + 1, T0 + 2), (T0 + 5, T0 + 4)]));
    assert!(!is_good(&[(T0 + 5, T0 + 4), (T0 + 7, T0 + 8)]));
}

#[test]
fn refusal_12_outside_the_window() {
    assert!(is_good(&[(T0, T1)]));
    assert!(is_good(&[(T0, T0), (T1, T1)]));
    assert!(!is_good(&[(T0 - 1, T1)]));
    assert!(!is_good(&[(T0, T1 + 1)]));
    assert!(!is_good(&[(T0 - 1, T0 - 1)]));
    assert!(!is_good(&[(T1 + 1, T1 + 1)]));
    assert!(!is_good(&[(T0, T0), (T1, T1 + 1)]));
    assert!(!is_good(&[(0, 0)]));
    assert!(!is_good(&[(0, u64::MAX)]));
}

#[test]
fn refusal_12_under_two_instants_after_the_one_before() {
    let behind = |first: u64| is_good(&[(T0, T0 + 10), (first, T1)]);
    assert!(behind(T0 + 12));
    assert!(!behind(T0 + 11));
    assert!(!behind(T0 + 10));
    assert!(!behind(T0 + 9));
    assert!(!behind(T0));
    // Order, and not only that they do not meet.
    assert!(is_good(&[(T0, T0 + 1), (T1, T1)]));
    assert!(!is_good(&[(T1, T1), (T0, T0 + 1)]));
    // Over the midnight, too.
    assert!(is_good(&[(T0, 3 * DAY - 1), (3 * DAY + 1, T1)]));
    assert!(!is_good(&[(T0, 3 * DAY - 1), (3 * DAY, T1)]));
}

/// A sum that wraps would take these for good.
#[test]
fn refusal_12_up_to_the_greatest_number() {
    const MOST: u64 = u64::MAX;
    for huge in [MOST, MOST - 1, MOST - 2, MOST - T0, 1 << 63, 1 << 32 | T0] {
        assert!(!is_good(&[(huge, huge)]), "{huge}");
        assert!(!is_good(&[(T0, huge)]), "{huge}");
        assert!(!is_good(&[(huge, T0)]), "{huge}");
        assert!(!is_good(&[(T0, huge), (T0 + 2, T0 + 3)]), "{huge}");
        assert!(!is_good(&[(huge, huge), (T0, T1)]), "{huge}");
        assert!(!is_good(&[(T0, T0), (huge, huge)]), "{huge}");
        assert!(!is_good(&[(0, huge), (T0, T1)]), "{huge}");
    }
}

#[test]
fn every_fault_is_refused() {
    let mut random = Random::of("every_fault_is_refused");
    for fault in FAULTS {
        for _ in 0..300 {
            let (job, mut list) = lists::to_spoil(&mut random);
            let at = lists::spoil(&mut random, &job, &mut list, fault);
            let answer = |list| summary_of(&job.encode(), &lists::bytes(list), 512).0;
            assert_eq!(answer(&list), NOT_GOOD, "{fault:?}");
            assert_eq!(answer(&list[..=at]), NOT_GOOD, "{fault:?}");
            assert_eq!(answer(&list[..at]).refusal, 0, "{fault:?}");
        }
    }
}
