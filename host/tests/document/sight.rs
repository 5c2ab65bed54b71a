//! Document 01, Hidden and visible; and document 02, wish 2: the station's turn.

use crate::helpers::*;
use host::place::Place;
use host::record::Job;
use host::sight::{station_term, Shadow, Station};
use host::whole::Whole;

/// Two turns of the station, ms. The first ends in the middle of a ms.
const TWO_TURNS: u64 = 172_328_181;

fn station(job: &Job) -> Station {
    Station::of(&Whole::of(&job.fields))
}

#[test]
fn hidden_at_equality_is_no() {
    let mut job = job7();
    let (X, Y) = Place::of(&Whole::of(&job.fields)).at(3_000_001);
    assert!(X < 0 && 4_000_000 < Y && Y < 5_000_000);
    let hidden_with = |job: &Job| Shadow::of(&Whole::of(&job.fields)).hidden(3_000_001);
    job.fields[6] = Y as f64 / 1000.0;
    assert!(!hidden_with(&job));
    job.fields[6] = (Y + 1) as f64 / 1000.0;
    assert!(hidden_with(&job));
}

#[test]
fn no_second_shadow_on_the_lit_side() {
    let shadow = Shadow::of(&Whole::of(&job7().fields));
    assert!(!shadow.hidden(0)); // d = a > 0, though X² + Y² − d² = 0
    assert!(shadow.hidden(3_600_000));
}

#[test]
fn up_along_minus_E_and_at_equality() {
    // On the equator, with E along x, up is −cos τ ≥ 2^30. Only τ = 2^31 gets
    // there: between two entries the reading stays below the greater. A dish at
    // half a turn has it where the station's term is 0, at 0 and after two
    // turns; around the first turn's end the term is 25 units short, and 24 over.
    let mut job = job7();
    job.fields[12] = 90.0;
    assert!(!station(&job).up(0)); // +E would say yes
    job.fields[10] = 180.0;
    let station = station(&job);
    assert!(station.up(0) && station.up(TWO_TURNS)); // sine of 90° reached exactly
    assert!(!station.up(1) && !station.up(TWO_TURNS - 1) && !station.up(TWO_TURNS + 1));
    assert!(!station.up(86_164_090) && !station.up(86_164_091));
    job.question = 2;
    (job.t0, job.t1, job.step) = (TWO_TURNS - 1000, TWO_TURNS + 1000, 1000);
    let (answer, intervals) = run(&job);
    assert_eq!(intervals, [interval(8 + 32, TWO_TURNS, TWO_TURNS)]);
    assert_eq!((answer.refusal, answer.intervals), (0, 1));
}

#[test]
fn station_turn_adds_three_parts() {
    let mut job = job7();
    (job.fields[10], job.fields[11]) = (270.0, 180.0);
    let station = station(&job);
    assert_eq!(station.tau(0), 1 << 30);
    // 10·21,541,023 = 861,640,905/4 + 3.75, and 3.75·2^32/861,640,905 = 18.69..
    assert_eq!(station.tau(21_541_023), (1 << 31) + 18);
    assert_eq!(station.tau(TWO_TURNS), 1 << 30);
}

#[test]
fn station_term_around_whole_turns() {
    // 5·2^32/861,640,905 = 24.92.., and twice that is 49.84..
    let short_by = u32::wrapping_neg;
    assert_eq!([0, 1].map(station_term), [0, 49]);
    // 10·t is 861,640,905 − 5, and + 5: the modulus comes after the factor ten.
    let at_one = [86_164_090, 86_164_091];
    assert_eq!(at_one.map(station_term), [short_by(25), 24]);
    // 10·t is 2·861,640,905 − 10, that itself, and + 10.
    let at_two = [TWO_TURNS - 1, TWO_TURNS, TWO_TURNS + 1];
    assert_eq!(at_two.map(station_term), [short_by(50), 0, 49]);
}

#[test]
fn station_term_after_days() {
    // 864,000,000 = 861,640,905 + 2,359,095: a day is a turn and 235.9095 s.
    // 2,359,095·2^32 = 11,759,232·861,640,905 + 570,572,160
    assert_eq!(station_term(86_400_000), 11_759_232);
    // Three days are three turns and some twelve minutes, 707.7285 s.
    // 7,077,285·2^32 = 35,277,697·861,640,905 + 850,075,575
    assert_eq!(station_term(259_200_000), 35_277_697);
    // 31 days, the latest instant: 31 turns and 7,313.1945 s.
    // 73,131,945·2^32 = 364,536,212·861,640,905 + 454,918,860
    assert_eq!(station_term(2_678_400_000), 364_536_212);
}

#[test]
fn station_term_in_unbounded_numbers() {
    // A whole turn taken off 10·t is 2^32 taken off the quotient, so that the
    // term is floor(10·t·2^32 / 861,640,905) modulo 2^32.
    let mut random = Random::of("station_term_in_unbounded_numbers");
    for _ in 0..3000 {
        let t = random.below(2_678_400_001);
        let quotient = ((10 * u128::from(t)) << 32) / 861_640_905;
        assert_eq!(station_term(t), quotient as u32, "{t}"); // the cast is modulo 2^32
    }
}

/// Document 02, wish 2: question 1's lists don't change.
#[test]
fn question_1_asks_nothing_of_the_station() {
    let mut random = Random::of("question_1_asks_nothing_of_the_station");
    let mut intervals = 0;
    for _ in 0..100 {
        let job = Job {
            question: 1,
            ..random.job()
        };
        let mut elsewhere = job;
        elsewhere.fields[9..].copy_from_slice(&random.job().fields[9..]);
        let (answer, list) = run(&job);
        assert_eq!(run(&elsewhere), (answer, list));
        intervals += answer.intervals;
    }
    assert!(intervals > 50, "too tame: {intervals}");
}

#[test]
fn visible_is_up_and_not_hidden() {
    // Up from a quarter of the station's turn to three quarters, 21,541,022.6 to
    // 64,623,067.9 ms; hidden from 150° to 210° of each orbit of 7,200,000 ms.
    let mut job = job7_in(36_000_000, 43_200_000, 600_000);
    job.question = 2;
    let (answer, intervals) = run(&job);
    let before = interval(1 + 16, 36_000_000, 38_999_999);
    let after = interval(4 + 2, 40_200_000, 43_200_000);
    assert_eq!(intervals, [before, after]);
    assert_eq!(answer.intervals, 2);
    job.question = 1;
    assert_eq!(run(&job).1, [interval(4 + 16, 39_000_000, 40_199_999)]);
}
