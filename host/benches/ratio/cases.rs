//! What is measured.

use super::common::families;
use super::common::jobs::{
    any, changing, eccentric, over, plausible, windowed, LONGEST_LIST, MARS, MOST_STEPS, VENUS,
};
use super::common::lists::{self, LONGEST_SUMMARY};
use super::common::random::Random;
use super::measured::{Sides, LISTING, SUMMING};
use host::record::{Job, ORBIT};
use std::cmp::Reverse;

pub struct Case {
    pub name: &'static str,
    pub sides: Sides,
    pub records: Vec<Vec<u8>>,
    /// What is added up by day; nothing where lists are made.
    pub list: Vec<u8>,
    pub room: usize,
}

pub fn all() -> Vec<Case> {
    let random = &mut Random::of("ratio");
    let with_room = |room, name, records| Case {
        name,
        sides: LISTING,
        records,
        list: vec![],
        room,
    };
    let case = |name, records| with_room(LONGEST_LIST, name, records);
    vec![
        case("few changes, question 1", few_changes(random, 1)),
        case("few changes, question 2", few_changes(random, 2)),
        case("few changes, e 0", of_eccentricity(0.0)),
        case("few changes, e 0.3", of_eccentricity(0.3)),
        case("few changes, e 0.95", of_eccentricity(0.95)),
        case("a change in each step, question 1", each_step(random, 1)),
        case("a change in each step, question 2", each_step(random, 2)),
        case("the same phases in each, question 1", same_phases(1)),
        case("the same phases in each, question 2", same_phases(2)),
        case("a horizon that flickers, question 2", flickering()),
        case("10 steps", short(random, 10, 60_000)),
        case("one step of 1 ms", short(random, 1, 1)),
        case("refused: random bytes", families::random_bytes(random)),
        case("refused: a short piece", vec![vec![0; ORBIT - 1]; 1_000]),
        case("refused: bits that are wrong", bits_that_are_wrong(random)),
        case("refused: question 3", many(|| unasked(any(random)))),
        with_room(0, "refused: no room", many(|| any(random))),
        totals_of_the_longest_list(),
    ]
}

/// Document 02, wish 3: 2,049 intervals over 31 days.
fn totals_of_the_longest_list() -> Case {
    let record = changing(1, 0.0, 650_000, 1).encode();
    Case {
        name: "totals by day of the longest list",
        sides: SUMMING,
        records: vec![record.to_vec()],
        list: lists::own(&record),
        room: LONGEST_SUMMARY,
    }
}

fn many(mut job: impl FnMut() -> Job) -> Vec<Vec<u8>> {
    (0..1_000).map(|_| job().encode().to_vec()).collect()
}

fn unasked(job: Job) -> Job {
    Job { question: 3, ..job }
}

fn few_changes(random: &mut Random, question: u32) -> Vec<Vec<u8>> {
    turn_and_a_half(random, |random| plausible(random, MARS, question))
}

/// Question 1 on orbits of one eccentricity, drawn from the same numbers for each, and from none of the
/// other cases': the proved search for E, of which a guess leaves little, beside the plain one, which
/// asks K 32 times whatever e is. Around Venus, where an orbit of e 0.95 takes less than a month.
fn of_eccentricity(e: f64) -> Vec<Vec<u8>> {
    let random = &mut Random::of("eccentricity");
    turn_and_a_half(random, |random| eccentric(random, VENUS, 1, e))
}

/// A turn and a half around the planet in 4,096 steps, with at least a change and at most eight.
fn turn_and_a_half(random: &mut Random, job: impl Fn(&mut Random) -> Job) -> Vec<Vec<u8>> {
    let orbit = || {
        let job = job(random);
        let step = (job.fields[5] * 1_500.0) as u64 / MOST_STEPS;
        windowed(random, job, MOST_STEPS, step).encode().to_vec()
    };
    let halvings = |record: &Vec<u8>| {
        let answer = host::list(record, &mut vec![0; LONGEST_LIST]);
        answer.asked - (MOST_STEPS + 1)
    };
    std::iter::repeat_with(orbit)
        .filter(|record| (1..=8 * 20).contains(&halvings(record)))
        .take(10)
        .collect()
}

fn each_step(random: &mut Random, question: u32) -> Vec<Vec<u8>> {
    let asks = |record: &Vec<u8>| Job::decode(record).is_some_and(|job| job.question == question);
    let mut records = families::every_step_changes(random);
    records.retain(asks);
    records
}

/// A change in each step again, but a step is just an odd number of half turns: every search asks the
/// same phases, and the processor can learn its branches by heart.
fn same_phases(question: u32) -> Vec<Vec<u8>> {
    let job = |(half_turn, half_turns, e)| {
        let step = half_turn * half_turns;
        let end = half_turn + MOST_STEPS * step;
        over(
            changing(question, e, half_turn, half_turns),
            half_turn,
            end,
            step,
        )
    };
    let shapes = [
        (30_000, 1, 0.0),
        (30_000, 21, 0.4),
        (37_000, 9, 0.1),
        (65_000, 9, 0.2),
        (650_000, 1, 0.3),
    ];
    shapes.map(|shape| job(shape).encode().to_vec()).to_vec()
}

/// Rises and sets from ms to ms. The ends are many, none takes a halving, and below the horizon hidden
/// has not been asked: the reasons of the ends, document 02's wish 1, are most of the work. Those with
/// the longest lists; from numbers of their own, so that the other cases stay as they are.
fn flickering() -> Vec<Vec<u8>> {
    let mut records = families::flickering(&mut Random::of("flickering"));
    let intervals = |record: &Vec<u8>| host::list(record, &mut vec![0; LONGEST_LIST]).intervals;
    records.sort_by_key(|record| Reverse(intervals(record)));
    records.truncate(5);
    records
}

fn short(random: &mut Random, steps: u64, step: u64) -> Vec<Vec<u8>> {
    many(|| {
        let job = any(random);
        windowed(random, job, steps, step)
    })
}

/// Good records with some bits flipped, those of them that are refused.
fn bits_that_are_wrong(random: &mut Random) -> Vec<Vec<u8>> {
    let mut records = families::bit_flips(random);
    records.retain(|record| host::list(record, &mut vec![0; LONGEST_LIST]).refusal != 0);
    records
}
