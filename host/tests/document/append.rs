//! Document 02, wish 3: an interval later than all others is appended to a summary.

use crate::common::jobs::refused_jobs;
use crate::common::lists::{self, FAULTS, SHORT_WINDOW};
use crate::helpers::*;
use crate::list_refusals::{NOT_GOOD, ROOM_SHORT};
use host::record::{Job, Total, INTERVAL, TOTAL};
use host::{append, Answer};

/// What is answered, and what is lent, afterwards; a refusal keeps every byte of it.
fn appended(record: &[u8], list: &[u8], interval: &[u8], lent: &[u8]) -> (Answer, Vec<u8>) {
    let mut buffer = lent.to_vec();
    let answer = append(record, list, interval, &mut buffer);
    assert!(answer.refusal == 0 || buffer == lent, "a byte was changed");
    (answer, buffer)
}

/// The list's summary, and some bytes behind it.
fn lent(record: &[u8], list: &[u8]) -> Vec<u8> {
    [lists::summary(record, list), vec![KEPT; 21]].concat()
}

#[test]
fn over_a_midnight() {
    let record = job7_over(DAY - 500, 3 * DAY).encode();
    let (list, interval) = (
        bytes_of(&[(DAY - 9, DAY - 5)]),
        bytes_of(&[(DAY - 3, DAY + 6)]),
    );
    let (answer, after) = appended(&record, &list, &interval, &lent(&record, &list));
    assert_eq!(answer, summed(4));
    let totals = [
        total(0, 2, 5 + 3),
        total(1, 1, 7),
        total(2, 0, 0),
        total(3, 0, 0),
    ];
    let totals: Vec<u8> = totals.iter().flat_map(Total::encode).collect();
    assert_eq!(after, [totals, vec![KEPT; 21]].concat());
}

/// Every list, from nothing on, one interval after the other: each time what is lent becomes the
/// summary of the longer list worked out afresh, and only the days that the interval touches change.
#[test]
fn every_split_of_a_list() {
    let mut random = Random::of("every_split_of_a_list");
    let mut intervals = 0;
    for _ in 0..400 {
        let job = lists::job(&mut random);
        let list = lists::good(&mut random, &job, 30);
        for at in 0..list.len() {
            hold_append(&job, &lists::bytes(&list[..=at]));
        }
        intervals += list.len();
    }
    assert!(intervals > 1_000, "too tame: {intervals}");
}

#[test]
fn every_split_of_lists_of_our_own() {
    let mut random = Random::of("every_split_of_lists_of_our_own");
    for _ in 0..200 {
        let job = random.job();
        let list = lists::own(&job.encode());
        for end in (INTERVAL..=list.len()).step_by(INTERVAL) {
            hold_append(&job, &list[..end]);
        }
    }
}

/// The last interval is appended to the others' summary.
fn hold_append(job: &Job, list: &[u8]) {
    let record = job.encode();
    let (others, interval) = list.split_at(list.len() - INTERVAL);
    let before = lent(&record, others);
    let (answer, after) = appended(&record, others, interval, &before);
    assert_eq!(answer, summed(before.len() / TOTAL - 1));
    assert_eq!(after, lent(&record, list));
    let days = before.chunks(TOTAL).zip(after.chunks(TOTAL)).enumerate();
    let changed = days.filter(|(_, (before, after))| before != after);
    let touched = touched(job, interval);
    assert!(changed.map(|(day, _)| day).eq(touched));
}

/// The places of the days from an interval's first to its last.
fn touched(job: &Job, interval: &[u8]) -> impl Iterator<Item = usize> {
    let at = |at: usize| u64::from_le_bytes(interval[at..at + 8].try_into().unwrap());
    let place = |t: u64| (t / DAY - job.t0 / DAY) as usize;
    place(at(8))..=place(at(16))
}

/// Appending is refused exactly where the longer list is not good.
#[test]
fn every_short_list() {
    let record = job7_over(SHORT_WINDOW.0, SHORT_WINDOW.1).encode();
    let pairs = lists::about_the_short_window();
    let hold = |list: &[u8], interval: &[u8]| {
        let longer = [list, interval].concat();
        let (refusal, totals) = summary_of(&record, &longer, 32);
        let before = [lists::summary(&record, list), vec![0; 32]].concat();
        let (answer, after) = appended(&record, list, interval, &before[..32]);
        assert_eq!(answer, refusal, "{longer:?}");
        if answer.refusal == 0 {
            let afresh: Vec<u8> = totals.iter().flat_map(Total::encode).collect();
            assert_eq!(after, afresh, "{longer:?}");
        }
    };
    for &one in &pairs {
        hold(&[], &bytes_of(&[one]));
        for &two in &pairs {
            hold(&bytes_of(&[one]), &bytes_of(&[two]));
        }
    }
}

#[test]
fn the_jobs_own_come_first() {
    let bad = [KEPT; 25];
    for (record, expected) in refused_jobs() {
        for room in [0, 15, 512] {
            let answer = appended(&record, &bad, &bad, &bad.repeat(21)[..room]).0;
            assert_eq!(answer, expected);
        }
    }
    let record = job7().encode();
    assert_eq!(appended(&record, &bad, &bad, &bad[..15]).0, ROOM_SHORT);
    assert_eq!(appended(&record, &bad, &bad, &bad[..16]).0, NOT_GOOD);
}

#[test]
fn never_9() {
    let record = job7_in(0, 4096, 1).encode();
    let interval = bytes_of(&[(5, 9)]);
    let (answer, after) = appended(&record, &[], &interval, &total(0, 0, 0).encode());
    assert_eq!(answer, summed(1));
    assert_eq!(after, total(0, 1, 5).encode());
}

#[test]
fn refusal_11_room_short_of_16_bytes_a_day() {
    for (t1, days) in [(DAY - 1, 1), (DAY, 2), (MONTH - 1, 31), (MONTH, 32)] {
        let record = job7_over(0, t1).encode();
        let summary = lent(&record, &[]);
        for room in 0..=16 * days + 20 {
            let answer = appended(&record, &[], &bytes_of(&[(0, t1)]), &summary[..room]).0;
            let enough = room >= 16 * days;
            assert_eq!(answer, if enough { summed(days) } else { ROOM_SHORT });
        }
    }
}

const T0: u64 = 3 * DAY - 1_000;
const T1: u64 = 3 * DAY + 1_000;
const OTHERS: [(u64, u64); 2] = [(T0 + 1, T0 + 4), (T0 + 8, T0 + 10)];

/// What is answered where this is appended to the others, with their summary.
fn answer_to(interval: &[u8]) -> Answer {
    let record = job7_over(T0, T1).encode();
    let others = bytes_of(&OTHERS);
    appended(&record, &others, interval, &lent(&record, &others)).0
}

#[test]
fn refusal_12_not_one_record() {
    let two = bytes_of(&[(T0 + 12, T0 + 15), (T0 + 20, T0 + 25)]);
    for length in 0..=48 {
        let expected = if length == 24 { summed(2) } else { NOT_GOOD };
        assert_eq!(answer_to(&two[..length]), expected, "{length}");
    }
}

#[test]
fn refusal_12_not_a_good_next_interval() {
    let good = |first, last| answer_to(&bytes_of(&[(first, last)])) == summed(2);
    let bad = |first, last| answer_to(&bytes_of(&[(first, last)])) == NOT_GOOD;
    assert!(good(T0 + 12, T0 + 12) && bad(T0 + 13, T0 + 12));
    assert!(good(T0 + 12, T1) && bad(T0 + 11, T1) && bad(T0 + 10, T1));
    assert!(bad(T0 + 12, T1 + 1) && bad(T1 + 1, T1 + 1));
    // Before the others, and between them.
    assert!(bad(T0 - 1, T0 - 1) && bad(T0 + 6, T0 + 6));
    for huge in [u64::MAX, u64::MAX - 1, 1 << 63] {
        assert!(bad(huge, huge) && bad(T0 + 12, huge) && bad(huge, T0 + 12));
    }
}

#[test]
fn refusal_12_a_list_that_is_not_good() {
    let record = job7_over(T0, T1).encode();
    let interval = bytes_of(&[(T0 + 12, T0 + 15)]);
    let others = bytes_of(&OTHERS);
    let summary = lent(&record, &others);
    for (list, answer) in [
        (others.clone(), summed(2)),
        (others[..47].to_vec(), NOT_GOOD),
        ([&others[..], &[0]].concat(), NOT_GOOD),
        // As many intervals and instants in each day, but not a list.
        (bytes_of(&[OTHERS[1], OTHERS[0]]), NOT_GOOD),
        (bytes_of(&[(T0 + 1, T0 + 4), (T0 + 5, T0 + 7)]), NOT_GOOD),
        (bytes_of(&[(T0 - 1, T0 + 2), OTHERS[1]]), NOT_GOOD),
    ] {
        assert_eq!(appended(&record, &list, &interval, &summary).0, answer);
    }
}

/// A bit of the first 16 bytes a day is wrong, or one behind them, which are nobody's.
#[test]
fn refusal_12_not_the_lists_summary() {
    let record = job7_over(T0, T1).encode();
    let (others, interval) = (bytes_of(&OTHERS), bytes_of(&[(T0 + 12, T1)]));
    let summary = lent(&record, &others);
    for bit in 0..8 * summary.len() {
        let mut wrong = summary.clone();
        wrong[bit / 8] ^= 1 << (bit % 8);
        let (answer, after) = appended(&record, &others, &interval, &wrong);
        if bit < 8 * 2 * TOTAL {
            assert_eq!(answer, NOT_GOOD);
        } else {
            assert_eq!((answer, &after[32..]), (summed(2), &wrong[32..]));
        }
    }
    for other in [&others[..24], &[&others[..], &interval].concat()] {
        let summary = lent(&record, other);
        assert_eq!(
            appended(&record, &others, &interval, &summary).0,
            NOT_GOOD,
            "a shorter list's, and the longer's"
        );
    }
}

#[test]
fn every_fault_is_refused() {
    let mut random = Random::of("every_appended_fault_is_refused");
    for fault in FAULTS {
        for _ in 0..300 {
            let (job, mut list) = lists::to_spoil(&mut random);
            let at = lists::spoil(&mut random, &job, &mut list, fault);
            let (record, others) = (job.encode(), lists::bytes(&list[..at]));
            let summary = lent(&record, &others);
            let answer = appended(&record, &others, &list[at].encode(), &summary).0;
            assert_eq!(answer, NOT_GOOD, "{fault:?}");
        }
    }
}
