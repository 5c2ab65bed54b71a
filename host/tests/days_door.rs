//! The door and the independent implementation do the same with totals by day: what is returned, the
//! answer, and every byte of the summary that was lent, and around both.
#![cfg(door)]

mod common;

use common::calls::{appending, hold, hold_any, lent, summing, unwritten, Call, ROOM};
use common::door::ANSWER;
use common::families::{test_each_family, Pieces};
use common::jobs::{self, over, DAY, LONGEST_STEP, MONTH};
use common::lists::{self, FAULTS, SHORT_WINDOW};
use common::random::Random;
use host::record::{Job, INTERVAL, ORBIT, TOTAL};
use host::Answer;

test_each_family!(agrees);

/// With the list of each record: all of it, all but the last interval and that appended, and nothing
/// right but the record.
fn agrees(name: &str, family: fn(&mut Random) -> Pieces) {
    let mut random = Random::of(name);
    for (number, piece) in family(&mut random).iter().enumerate() {
        let list = lists::own(piece);
        let less = random.between(0, ROOM as u64) as usize;
        let refusal = hold(name, number, &summing(piece, &list, &unwritten(ROOM))).refusal;
        assert!(refusal < 9, "{name}, {number}: refusal {refusal}");
        hold(name, number, &summing(piece, &list, &unwritten(less)));
        let (others, interval) = list.split_at(list.len().saturating_sub(INTERVAL));
        let lent = lent(piece, others);
        hold(name, number, &appending(piece, others, interval, &lent));
        let wrong = random.bytes(INTERVAL + 1);
        hold(name, number, &summing(piece, &wrong, &unwritten(less)));
        hold(name, number, &appending(piece, &wrong, &wrong, &lent));
        hold(name, number, &appending(piece, &[], &wrong, &lent[..less]));
    }
}

/// The job's own refusals in order, each with all that come after it, 11 and 12 among them.
#[test]
fn the_jobs_own_come_first() {
    let bad = [1; INTERVAL + 1];
    for (number, (record, expected)) in jobs::refused_jobs().iter().enumerate() {
        for room in [0, 15, ROOM] {
            let lent = unwritten(room);
            let name = "the_jobs_own_come_first";
            let calls = [
                summing(record, &bad, &lent),
                appending(record, &bad, &bad, &lent),
            ];
            for call in &calls {
                assert_eq!(hold(name, number, call), *expected);
            }
        }
    }
}

/// What is answered where a summary of the job is written.
fn written(job: &Job) -> Answer {
    Answer {
        refusal: 0,
        field: 0,
        number: 0,
        intervals: (lists::need(job) / TOTAL) as u64,
        asked: 0,
    }
}

/// A good list with just the room that its summary needs; and its last interval, appended to the others.
fn hold_good(name: &str, number: usize, job: &Job, list: &[u8]) {
    let record = job.encode();
    let room = unwritten(lists::need(job));
    let answer = hold(name, number, &summing(&record, list, &room));
    assert_eq!(answer, written(job));
    if let Some(end) = list.len().checked_sub(INTERVAL) {
        let (others, interval) = list.split_at(end);
        let lent = lent(&record, others);
        let answer = hold(name, number, &appending(&record, others, interval, &lent));
        assert_eq!(answer, written(job));
    }
}

/// A good list from nothing on, one interval after the other.
fn hold_each(name: &str, number: usize, job: &Job, list: &[u8]) {
    for end in (0..=list.len()).step_by(INTERVAL) {
        hold_good(name, number, job, &list[..end]);
    }
}

#[test]
fn good_lists() {
    let mut random = Random::of("good_lists");
    for number in 0..2_000 {
        let job = lists::job(&mut random);
        let list = lists::good(&mut random, &job, 30);
        hold_each("good_lists", number, &job, &lists::bytes(&list));
    }
}

#[test]
fn own_lists() {
    let mut random = Random::of("own_lists");
    for number in 0..200 {
        let job = lists::job(&mut random);
        let list = lists::own(&job.encode());
        hold_each("own_lists", number, &job, &list);
    }
}

/// The longest list of ours, and one with more intervals than any of ours and than two bytes count.
#[test]
fn long_lists() {
    let month = jobs::changing(1, 0.0, 650_000, 1);
    hold_good("long_lists", 0, &month, &lists::own(&month.encode()));
    let midnight = over(month, 2 * DAY - 140_001, 2 * DAY + 3, LONGEST_STEP);
    let list = lists::every_second_instant(&midnight);
    hold_good("long_lists", 1, &midnight, &lists::bytes(&list));
}

/// Every list of up to two intervals about a midnight, good or not; and of two the second appended.
#[test]
fn every_short_list() {
    let random = &mut Random::of("every_short_list");
    let record = over(
        jobs::any(random),
        SHORT_WINDOW.0,
        SHORT_WINDOW.1,
        LONGEST_STEP,
    )
    .encode();
    let pairs = lists::about_the_short_window();
    let bytes = |&(first, last): &(u64, u64)| lists::foreign(random, first, last).encode();
    let intervals: Vec<_> = pairs.iter().map(bytes).collect();
    let mut good = 0;
    for (number, one) in intervals.iter().enumerate() {
        let held = |call: &Call| hold("every_short_list", number, call);
        let lent = lent(&record, one);
        held(&summing(&record, one, &lent));
        for two in &intervals {
            let list = [&one[..], two].concat();
            let answer = held(&summing(&record, &list, &lent));
            assert_eq!(held(&appending(&record, one, two, &lent)), answer);
            good += usize::from(answer.refusal == 0);
        }
    }
    assert_eq!(good, 35); // C(6 + 1, 4): four ends in six instants, with one between the two
}

/// Where nothing is wrong with the job and there is room, what is not good is refusal 12.
fn refused_12(name: &str, number: usize, call: &Call) {
    assert_eq!(hold(name, number, call), Answer::refused(12, 0, 0));
}

/// A list with a fault; its faulty interval, appended to the good ones before it; and a good one,
/// appended to what has the fault.
#[test]
fn every_fault() {
    let mut random = Random::of("every_fault");
    for (number, fault) in FAULTS.repeat(400).into_iter().enumerate() {
        let (job, good) = lists::to_spoil(&mut random);
        let mut list = good.clone();
        let at = lists::spoil(&mut random, &job, &mut list, fault);
        let record = job.encode();
        let refused = |call: &Call| refused_12("every_fault", number, call);
        let (good, list) = (lists::bytes(&good), lists::bytes(&list));
        let (before, from) = list.split_at(INTERVAL * at);
        refused(&summing(&record, &list, &unwritten(ROOM)));
        refused(&appending(
            &record,
            before,
            &from[..INTERVAL],
            &lent(&record, before),
        ));
        let end = list.len() - INTERVAL;
        if at < end / INTERVAL {
            let lent = lent(&record, &good[..end]);
            refused(&appending(&record, &list[..end], &list[end..], &lent));
        }
    }
}

/// Some bits of a good list and of an interval behind it are wrong: mostly that matters, and in a job's
/// number and in the flags it does not.
#[test]
fn bits_of_a_list() {
    let mut random = Random::of("bits_of_a_list");
    let mut refusals = [0; 13];
    for number in 0..3_000 {
        let (job, list) = lists::to_spoil(&mut random);
        let (record, good) = (job.encode(), lists::bytes(&list));
        let mut list = good.clone();
        for _ in 0..random.between(1, 2) {
            let bit = random.below(8 * list.len() as u64) as usize;
            list[bit / 8] ^= 1 << (bit % 8);
        }
        let (others, interval) = list.split_at(list.len() - INTERVAL);
        let lent = lent(&record, &good[..others.len()]);
        let answer = hold("bits_of_a_list", number, &summing(&record, &list, &lent));
        refusals[answer.refusal as usize] += 1;
        hold(
            "bits_of_a_list",
            number,
            &appending(&record, others, interval, &lent),
        );
    }
    assert!(refusals[0] > 100 && refusals[12] > 100, "{refusals:?}");
}

/// A job and a good list of several intervals, each of which can be appended to those before it.
fn some_list(name: &str) -> (Job, Vec<u8>) {
    let (job, list) = lists::to_spoil(&mut Random::of(name));
    (job, lists::bytes(&list))
}

/// Refusal 12, exactly if it is not good.
fn expected(job: &Job, good: bool) -> Answer {
    if good {
        written(job)
    } else {
        Answer::refused(12, 0, 0)
    }
}

/// A list of any length but whole records is refused, and so is anything but one record behind it.
#[test]
fn every_length() {
    let (job, list) = some_list("every_length");
    let (record, room) = (job.encode(), unwritten(ROOM));
    for length in 0..=list.len() {
        let call = summing(&record, &list[..length], &room);
        let answer = hold("every_length", length, &call);
        assert_eq!(answer, expected(&job, length % INTERVAL == 0));
    }
    let (one, others) = list.split_at(INTERVAL);
    let (lent, others) = (lent(&record, one), others.repeat(3));
    for length in 0..=others.len() {
        let call = appending(&record, one, &others[..length], &lent);
        let answer = hold("every_length", length, &call);
        assert_eq!(answer, expected(&job, length == INTERVAL));
    }
}

/// Each bit of the longest summary, and of what is lent behind it, by itself: refused exactly where the
/// bit is one of the summary's.
#[test]
fn every_bit_of_a_summary() {
    let any = jobs::any(&mut Random::of("every_bit_of_a_summary"));
    let job = over(any, 0, MONTH, LONGEST_STEP);
    let midnights: Vec<_> = (0..=31).map(|day| lists::at(DAY * day)).collect();
    let (record, list) = (job.encode(), lists::bytes(&midnights));
    let (others, interval) = list.split_at(list.len() - INTERVAL);
    let lent = lent(&record, others);
    for bit in 0..8 * lent.len() {
        let mut wrong = lent.clone();
        wrong[bit / 8] ^= 1 << (bit % 8);
        let call = appending(&record, others, interval, &wrong);
        let answer = hold("every_bit_of_a_summary", bit, &call);
        assert_eq!(answer, expected(&job, bit / 8 >= lists::need(&job)));
    }
}

/// The summary of every other beginning of the list, and of every list of the same job without one of its
/// intervals, which may have as much in each day.
#[test]
fn summaries_of_other_lists() {
    let (job, list) = some_list("summaries_of_other_lists");
    let record = job.encode();
    let end = list.len() - INTERVAL;
    let mut others: Vec<Vec<u8>> = vec![];
    for at in (0..=end).step_by(INTERVAL) {
        others.push(list[..at].to_vec());
        others.push([&list[..at], &list[at + INTERVAL..]].concat());
    }
    others.push(list.clone());
    for (number, other) in others.iter().enumerate() {
        let lent = lent(&record, other);
        let call = appending(&record, &list[..end], &list[end..], &lent);
        let answer = hold("summaries_of_other_lists", number, &call);
        let same = lists::summary(&record, other) == lists::summary(&record, &list[..end]);
        assert_eq!(answer, expected(&job, same));
    }
}

/// Every room from 0 to beyond the need, 16 bytes a day, for each number of days: refusal 11 exactly
/// below it, even where the list and the interval are not good.
#[test]
fn every_room() {
    let any = jobs::any(&mut Random::of("every_room"));
    for days in 1..=32 {
        let job = over(any, 0, MONTH.min(DAY * days - 1), LONGEST_STEP);
        let (record, list) = (job.encode(), lists::own(&job.encode()));
        let need = TOTAL * days as usize;
        let lent = [lent(&record, &[]), unwritten(TOTAL)].concat();
        for room in 0..=need + TOTAL + 1 {
            let room = &lent[..room];
            let expected = |good| match room.len() < need {
                true => Answer::refused(11, 0, 0),
                false => expected(&job, good),
            };
            let held = |call: &Call| hold("every_room", days as usize, call);
            let (t1, none) = (lists::at(job.t1).encode(), [0; INTERVAL - 1]);
            assert_eq!(held(&summing(&record, &list, room)), expected(true));
            assert_eq!(held(&summing(&record, &none, room)), expected(false));
            assert_eq!(held(&appending(&record, &[], &t1, room)), expected(true));
            assert_eq!(held(&appending(&record, &none, &t1, room)), expected(false));
            assert_eq!(held(&appending(&record, &[], &none, room)), expected(false));
        }
    }
}

/// An answer of any length but 32 is not written, and nor is the summary, whatever it would be.
#[test]
fn every_answer_length() {
    let (job, list) = some_list("every_answer_length");
    let record = job.encode();
    let (others, interval) = list.split_at(list.len() - INTERVAL);
    let lent = lent(&record, others);
    for answer_length in 0..=64 {
        for call in [
            summing(&record, &list, &lent),
            summing(&record, &list[1..], &lent),
            summing(&record, &list, &[]),
            summing(&record[1..], &list, &lent),
            appending(&record, others, interval, &lent),
            appending(&record, others, others, &lent),
            appending(&record, others, interval, &[]),
            appending(&record[1..], others, interval, &lent),
        ] {
            let call = Call {
                answer_length,
                ..call
            };
            let returned = hold_any("every_answer_length", answer_length, &call).returned;
            assert_eq!(returned == 1, answer_length == ANSWER, "{answer_length}");
        }
    }
}

/// A record of any length but 136 is refusal 1.
#[test]
fn every_record_length() {
    let (job, list) = some_list("every_record_length");
    let records = job.encode().repeat(3);
    let (others, interval) = list.split_at(list.len() - INTERVAL);
    let lent = lent(&job.encode(), others);
    for length in 0..=300 {
        let record = &records[..length];
        for call in [
            summing(record, &list, &lent),
            appending(record, others, interval, &lent),
        ] {
            let answer = hold("every_record_length", length, &call);
            let expected = match length {
                ORBIT => written(&job),
                _ => Answer::refused(1, 0, 0),
            };
            assert_eq!(answer, expected, "{length} bytes");
        }
    }
}
