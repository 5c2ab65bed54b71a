//! Document 01, One job whole: the small program; and the one for document 02's wish 3.

use crate::common::{jobs, lists};
use crate::helpers::*;
use host::record::{Interval, Job, INTERVAL, ORBIT, TOTAL};
use host::{program, totals};

fn closing(job: u32, flags: u32, first: u64, last: u64) -> [u8; INTERVAL] {
    Interval {
        job,
        flags,
        first,
        last,
    }
    .encode()
}

#[test]
fn program_with_nothing() {
    assert_eq!(program(&[]), []);
}

#[test]
fn program_with_job_7() {
    let expected = [
        interval(4 + 16, SHADOW[0], SHADOW[1]).encode(),
        closing(7, 512, 1, ASKED),
    ];
    assert_eq!(program(&job7().encode()), expected.concat());
}

#[test]
fn program_with_refusals_goes_on() {
    let mut far = job7();
    far.job = 0x0102_0304;
    far.fields[8] = 91.0;
    let worded = Job {
        job: 9,
        word: 1,
        ..job7()
    };
    let input = [
        &far.encode()[..],
        &worded.encode(),
        &job7().encode(),
        &[7, 7, 7, 7],
    ];
    let expected = [
        closing(0x0102_0304, 260, 9, 0),
        closing(9, 258, 0, 0),
        interval(4 + 16, SHADOW[0], SHADOW[1]).encode(),
        closing(7, 512, 1, ASKED),
        closing(0, 257, 0, 0),
    ];
    assert_eq!(program(&input.concat()), expected.concat());
}

#[test]
fn program_with_short_pieces() {
    let record = job7().encode();
    for length in 1..ORBIT {
        assert_eq!(program(&record[..length]), closing(0, 257, 0, 0));
    }
}

#[test]
fn program_has_room_for_the_longest_job() {
    let record = job7_in(0, 4096, 1).encode();
    assert_eq!(program(&record), closing(7, 512, 0, 4097));
}

#[test]
fn totals_with_nothing() {
    assert_eq!(totals(&[]), []);
}

/// The head is the list's closing record, but with the number of days.
#[test]
fn totals_with_job_7() {
    let expected = [
        &closing(7, 512, 1, ASKED)[..],
        &total(0, 1, 1_200_000).encode(),
    ];
    assert_eq!(totals(&job7().encode()), expected.concat());
}

/// Job 7 goes round twelve times a day, and each time is hidden at 1,200,000 instants. The
/// window has the last turn of day 0, day 1 and the first ms of day 2.
#[test]
fn totals_with_two_midnights() {
    let record = job7_in(DAY - 7_200_000, 2 * DAY, 600_000).encode();
    let written = program(&record);
    let (list, end) = written.split_at(written.len() - INTERVAL);
    let turn = |k: u64| interval(4 + 16, 7_200_000 * k + SHADOW[0], 7_200_000 * k + SHADOW[1]);
    let turns: Vec<u8> = (11..24).flat_map(|k| turn(k).encode()).collect();
    assert_eq!(list, turns);
    let asked = Interval::decode(end).unwrap().last;
    let expected = [
        &closing(7, 512, 3, asked)[..],
        &total(0, 1, 1_200_000).encode(),
        &total(1, 12, 12 * 1_200_000).encode(),
        &total(2, 0, 0).encode(),
    ];
    assert_eq!(totals(&record), expected.concat());
}

/// A refused job has what `program` writes for it, and no more.
#[test]
fn totals_with_refusals_goes_on() {
    let mut far = job7();
    far.fields[8] = 91.0;
    let input = [&far.encode()[..], &job7().encode(), &[7, 7, 7, 7]];
    let expected = [
        &closing(7, 260, 9, 0)[..],
        &closing(7, 512, 1, ASKED),
        &total(0, 1, 1_200_000).encode(),
        &closing(0, 257, 0, 0),
    ];
    assert_eq!(totals(&input.concat()), expected.concat());
    let record = job7().encode();
    for length in 1..ORBIT {
        assert_eq!(totals(&record[..length]), closing(0, 257, 0, 0));
    }
}

#[test]
fn totals_has_room_for_the_longest_window() {
    let written = totals(&job7_over(0, MONTH).encode());
    let (head, summary) = written.split_at(INTERVAL);
    let head = Interval::decode(head).unwrap();
    assert_eq!((head.job, head.flags, head.first), (7, 512, 32));
    assert_eq!(summary.len(), 32 * TOTAL);
}

/// What the two programs write for the same job: the summary is that of the list, and both count
/// the same instants.
#[test]
fn totals_of_what_the_program_lists() {
    let mut random = Random::of("totals_of_what_the_program_lists");
    for _ in 0..300 {
        let job = jobs::any(&mut random);
        let (listed, written) = (program(&job.encode()), totals(&job.encode()));
        let (list, end) = listed.split_at(listed.len() - INTERVAL);
        let (head, summary) = written.split_at(INTERVAL);
        assert_eq!(summary, lists::summary(&job.encode(), list));
        let end = Interval::decode(end).unwrap();
        let days = (summary.len() / TOTAL) as u64;
        assert_eq!(head, Interval { first: days, ..end }.encode());
    }
}
