//! Document 01, Turned away: each row, and their order.

use crate::helpers::*;
use host::record::{Job, ORBIT};
use host::Answer;

/// Job 7 with field k (from 1) set to x, asked for either question.
fn with_field(k: usize, x: f64, question: u32) -> Answer {
    let mut job = job7();
    job.fields[k - 1] = x;
    job.question = question;
    run(&job).0
}

#[test]
fn a_refusal_returns_no_intervals_and_no_instants() {
    let expected = Answer {
        refusal: 3,
        field: 2,
        number: 5,
        intervals: 0,
        asked: 0,
    };
    assert_eq!(Answer::refused(3, 2, 5), expected);
}

#[test]
fn refusal_1_length() {
    let record = job7().encode();
    for length in 0..ORBIT {
        assert_eq!(
            answer_of(&record[..length], ROOM).0,
            Answer::refused(1, 0, 0)
        );
    }
    let longer = [&record[..], &[0]].concat();
    assert_eq!(answer_of(&longer, ROOM).0, Answer::refused(1, 0, 0));
    assert_eq!(answer_of(&record, ROOM).0, listed(1, ASKED));
}

#[test]
fn refusal_2_word() {
    for bit in 0..32 {
        let word = 1 << bit;
        assert_eq!(run(&Job { word, ..job7() }).0, Answer::refused(2, 0, 0));
    }
}

#[test]
fn refusal_3_not_finite() {
    let payload = f64::from_bits(0xFFF0_0000_0000_1234); // a signalling NaN
    for k in 1..=13 {
        for x in [f64::NAN, f64::INFINITY, f64::NEG_INFINITY, payload] {
            for question in [1, 2] {
                let expected = Answer::refused(3, k as u32, x.to_bits());
                assert_eq!(with_field(k, x, question), expected);
            }
        }
    }
}

#[test]
fn refusal_4_exactly_outside_the_range() {
    for (k, (least, most, with_most)) in (1..).zip(ACCEPTED) {
        for question in [1, 2] {
            let turned_away = |x: f64| {
                let answer = with_field(k, x, question);
                if answer.refusal == 4 {
                    assert_eq!(answer, Answer::refused(4, k as u32, x.to_bits()));
                }
                answer.refusal == 4
            };
            assert!(turned_away(least.next_down()), "field {k}");
            assert!(!turned_away(least), "field {k}");
            assert!(!turned_away(most.next_down()), "field {k}");
            assert_eq!(turned_away(most), !with_most, "field {k}");
            assert!(turned_away(most.next_up()), "field {k}");
            assert!(turned_away(-1e300) && turned_away(f64::MAX), "field {k}");
        }
    }
}

#[test]
fn minus_zero_is_zero() {
    for k in [2, 3, 4, 5, 8, 9, 10, 11, 12, 13] {
        assert_eq!(with_field(k, -0.0, 1), listed(1, ASKED), "field {k}");
    }
    for k in [1, 6, 7] {
        let expected = Answer::refused(4, k as u32, (-0.0f64).to_bits());
        assert_eq!(with_field(k, -0.0, 1), expected);
        assert_eq!(with_field(k, 0.0, 1), Answer::refused(4, k as u32, 0));
    }
}

#[test]
fn refusal_5_closest_distance() {
    assert_eq!(
        with_field(2, 0.5, 1),
        Answer::refused(5, 0, 5000f64.to_bits())
    );
    // 1 − e lies half-way between two floats here and is rounded to 0.5.
    let below = 0.5f64.next_down();
    assert_eq!(
        with_field(2, below, 1),
        Answer::refused(5, 0, 5000f64.to_bits())
    );
    assert_eq!(with_field(2, below.next_down(), 1).refusal, 0);
    assert_eq!(
        with_field(7, 10000.0, 2),
        Answer::refused(5, 0, 10000f64.to_bits())
    );
    assert_eq!(with_field(7, 10000f64.next_down(), 2).refusal, 0); // the same metre
    let mut job = job7();
    (job.fields[0], job.fields[1]) = (100.1, 0.1); // 1 − 0.1, then the product
    assert_eq!(
        run(&job).0,
        Answer::refused(5, 0, (100.1f64 * 0.9).to_bits())
    );
}

#[test]
fn refusal_6_window() {
    assert_eq!(run(&job7_in(5, 5, 1)).0, Answer::refused(6, 0, 0));
    assert_eq!(run(&job7_in(6, 5, 1)).0, Answer::refused(6, 0, 0));
    assert_eq!(
        run(&job7_in(0, 2_678_400_001, 1)).0,
        Answer::refused(6, 0, 0)
    );
    assert_eq!(run(&job7_in(0, u64::MAX, 1)).0, Answer::refused(6, 0, 0));
    let latest = job7_in(2_678_399_999, 2_678_400_000, 1);
    assert_eq!(run(&latest).0, listed(0, 2));
}

#[test]
fn refusal_7_step() {
    assert_eq!(run(&job7_in(0, 10, 0)).0, Answer::refused(7, 0, 0));
    assert_eq!(run(&job7_in(0, 10, 1_048_577)).0, Answer::refused(7, 0, 0));
    assert_eq!(run(&job7_in(0, 10, u32::MAX)).0, Answer::refused(7, 0, 0));
    assert_eq!(run(&job7_in(0, 10, 1_048_576)).0, listed(0, 2));
    assert_eq!(run(&job7_in(0, 4097, 1)).0, Answer::refused(7, 0, 0));
}

#[test]
fn refusal_8_question() {
    for question in [0, 3, 0x0100_0001, u32::MAX] {
        let job = Job { question, ..job7() };
        assert_eq!(run(&job).0, Answer::refused(8, 0, 0));
    }
}

#[test]
fn the_first_that_applies() {
    let mut job = Job {
        word: 1,
        t1: 0,
        step: 0,
        question: 0,
        ..job7()
    };
    job.fields[0] = -1.0;
    job.fields[1] = f64::NAN;
    job.fields[6] = 20000.0;
    let first = |job: &Job| answer_of(&job.encode(), 0).0;
    assert_eq!(answer_of(&job.encode()[1..], 0).0, Answer::refused(1, 0, 0));
    assert_eq!(first(&job), Answer::refused(2, 0, 0));
    job.word = 0; // field 1 out of range comes before field 2 NaN
    assert_eq!(first(&job), Answer::refused(4, 1, (-1f64).to_bits()));
    job.fields[0] = 10000.0;
    assert_eq!(first(&job), Answer::refused(3, 2, f64::NAN.to_bits()));
    job.fields[1] = 0.0;
    job.fields[12] = 91.0; // the last field comes before the distance
    assert_eq!(first(&job), Answer::refused(4, 13, 91f64.to_bits()));
    job.fields[12] = 0.0;
    assert_eq!(first(&job), Answer::refused(5, 0, 10000f64.to_bits()));
    job.fields[6] = 5000.0;
    assert_eq!(first(&job), Answer::refused(6, 0, 0));
    job.t1 = 10;
    assert_eq!(first(&job), Answer::refused(7, 0, 0));
    job.step = 1;
    assert_eq!(first(&job), Answer::refused(8, 0, 0));
    job.question = 2;
    assert_eq!(first(&job), Answer::refused(9, 0, 0));
    assert_eq!(answer_of(&job.encode(), 24 * 6).0.refusal, 0);
}
