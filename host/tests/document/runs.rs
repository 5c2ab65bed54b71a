//! Document 01, On both sides: the cases that are run, and job 7.

use crate::helpers::*;
use host::list;
use host::record::Interval;
use host::Answer;

#[test]
fn job_7_list_and_count() {
    let mut buffer = [KEPT; 168];
    let answer = list(&job7().encode(), &mut buffer);
    assert_eq!(answer, listed(1, ASKED));
    let bytes = [
        0x07, 0x00, 0x00, 0x00, 0x14, 0x00, 0x00, 0x00, 0xC0, 0xC6, 0x2D, 0x00, 0x00, 0x00, 0x00,
        0x00, 0x3F, 0x16, 0x40, 0x00, 0x00, 0x00, 0x00, 0x00,
    ];
    assert_eq!(buffer[..24], bytes);
    assert!(buffer[24..].iter().all(|&b| b == KEPT));
    let first_and_last = interval(4 + 16, SHADOW[0], SHADOW[1]);
    assert_eq!(Interval::decode(&bytes), Some(first_and_last));
}

#[test]
fn a_yes_only_at_t1() {
    let (answer, intervals) = run(&job7_in(0, 3_000_000, 600_000));
    assert_eq!(intervals, [interval(4 + 2, 3_000_000, 3_000_000)]);
    assert_eq!(answer, listed(1, 6 + 20));
}

#[test]
fn a_yes_only_at_t0() {
    let (answer, intervals) = run(&job7_in(4_199_999, 4_799_999, 600_000));
    assert_eq!(intervals, [interval(1 + 16, 4_199_999, 4_199_999)]);
    assert_eq!(answer, listed(1, 2 + 19));
}

#[test]
fn t1_is_t0_plus_1() {
    let (answer, intervals) = run(&job7_in(2_999_999, 3_000_000, 1));
    assert_eq!(intervals, [interval(4 + 2, 3_000_000, 3_000_000)]);
    assert_eq!(answer, listed(1, 2));
    let (answer, intervals) = run(&job7_in(3_000_000, 3_000_001, 1));
    assert_eq!(intervals, [interval(1 + 2, 3_000_000, 3_000_001)]);
    assert_eq!(answer, listed(1, 2));
    let (answer, intervals) = run(&job7_in(4_199_999, 4_200_000, 1));
    assert_eq!(intervals, [interval(1 + 16, 4_199_999, 4_199_999)]);
    assert_eq!(answer, listed(1, 2));
    assert_eq!(run(&job7_in(0, 1, 1)), (listed(0, 2), vec![]));
}

#[test]
fn a_step_longer_than_the_window() {
    let (answer, intervals) = run(&job7_in(2_999_000, 3_001_048, 1_048_576));
    assert_eq!(intervals, [interval(4 + 2, 3_000_000, 3_001_048)]);
    assert_eq!(answer, listed(1, 2 + 11)); // 2,048 ms: eleven halvings
}

#[test]
fn steps_4096_and_4097() {
    let (answer, intervals) = run(&job7_in(0, 4_096_000, 1000));
    assert_eq!(intervals, [interval(4 + 2, 3_000_000, 4_096_000)]);
    assert_eq!((answer.refusal, answer.intervals), (0, 1));
    assert!(
        (4097 + 9..=4097 + 10).contains(&answer.asked),
        "one changed step of 1,000 ms"
    );
    assert_eq!(
        run(&job7_in(0, 4_096_001, 1000)).0,
        Answer::refused(7, 0, 0)
    );
    assert_eq!(
        run(&job7_in(0, 4_097_000, 1000)).0,
        Answer::refused(7, 0, 0)
    );
}

#[test]
fn room_one_byte_short() {
    // n = 12 asks for 24·ceil(13/2) = 168 bytes.
    assert_eq!(answer_of(&job7().encode(), 167).0, Answer::refused(9, 0, 0));
    assert_eq!(answer_of(&job7().encode(), 168).0, listed(1, ASKED));
    // n = 1 asks for 24, n = 2 for 48, n = 3 for 48.
    for (n, room) in [(1, 24), (2, 48), (3, 48), (4, 72), (4096, 24 * 2049)] {
        let record = job7_in(0, n, 1).encode();
        assert_eq!(
            answer_of(&record, room - 1).0,
            Answer::refused(9, 0, 0),
            "{n}"
        );
        assert_eq!(answer_of(&record, room).0, listed(0, n + 1), "{n}");
    }
}

#[test]
fn the_shorter_last_step_is_not_lost() {
    // Samples 0, 1,000,000, .., 4,000,000 and 4,150,000.
    let (answer, intervals) = run(&job7_in(0, 4_150_000, 1_000_000));
    assert_eq!(intervals, [interval(4 + 2, 3_000_000, 4_150_000)]);
    assert_eq!(answer, listed(1, 6 + 20));
}
