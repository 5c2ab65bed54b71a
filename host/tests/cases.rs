//! The tests of agreement can fail: a wrong answer is told, and the cases are those that they are
//! said to be.

mod common;

use common::comparing::{Difference, Program, LISTS, TOTALS};
use common::families::{self, Pieces};
use common::jobs::{self, LONGEST_LIST, MOST_STEPS};
use common::lists;
use common::random::Random;
use common::told;
use host::record::{Interval, Job, INTERVAL, TOTAL};
use host::Answer;
use std::collections::BTreeSet;

const PROGRAMS: [Program; 2] = [LISTS, TOTALS];

/// Listed and refused records, and a short piece.
fn some_pieces() -> Pieces {
    let mut random = Random::of("some_pieces");
    let mut pieces = families::short_tail(&mut random);
    pieces.splice(3..3, families::words(&mut random));
    pieces
}

#[test]
fn the_same_answers_are_no_difference() {
    for program in PROGRAMS {
        let answers = program.answers(&some_pieces());
        assert_eq!(program.first_difference(&answers, &answers.concat()), None);
    }
}

#[test]
fn each_wrong_byte_is_found_in_its_answer() {
    for program in PROGRAMS {
        let answers = program.answers(&some_pieces());
        let mut output = answers.concat();
        let cases = answers
            .iter()
            .enumerate()
            .flat_map(|(case, answer)| vec![case; answer.len()]);
        for (at, case) in cases.enumerate() {
            output[at] ^= 1 << (at % 8);
            let found = program.first_difference(&answers, &output);
            let found = found.map(|difference| difference.case);
            assert_eq!(found, Some(case), "{}: byte {at}", program.name);
            output[at] ^= 1 << (at % 8);
        }
    }
}

#[test]
fn an_output_that_ends_early_is_found() {
    for program in PROGRAMS {
        let answers = program.answers(&some_pieces());
        let output = answers.concat();
        for length in 0..output.len() {
            let found = program.first_difference(&answers, &output[..length]);
            assert!(found.is_some(), "{}: {length} bytes", program.name);
        }
    }
}

#[test]
fn an_output_that_goes_on_is_found() {
    for program in PROGRAMS {
        let answers = program.answers(&some_pieces());
        let more = Difference {
            case: answers.len(),
            independent: vec![],
            proved: vec![7; 3],
        };
        let output = [answers.concat(), vec![7; 3]].concat();
        assert_eq!(program.first_difference(&answers, &output), Some(more));
    }
}

/// What is told where a byte of the second of three answers to the job is wrong.
fn told_of_a_wrong_byte(program: &Program, job: Job, at: usize) -> String {
    let pieces = vec![job.encode().to_vec(); 3];
    let answers = program.answers(&pieces);
    let mut output = answers.concat();
    output[answers[0].len() + at] ^= 1;
    let difference = program.first_difference(&answers, &output).unwrap();
    program.told(&difference, "mars", &pieces)
}

fn assert_tells(told: &str, parts: &[&str]) {
    for part in parts {
        assert!(told.contains(part), "{part}\nis not in\n{told}");
    }
}

/// What is told has the job in words and in bits, both answers and the seed.
#[test]
fn a_difference_is_told() {
    let job = jobs::changing(1, 0.0, 30_000, 1);
    let told = told_of_a_wrong_byte(&LISTS, job, 40);
    let seed = common::random::seed();
    let answer = host::program(&job.encode());
    let interval = |k: usize| told::records(&answer[INTERVAL * k..][..INTERVAL])[0].clone();
    assert_tells(
        &told,
        &[
            &format!(
                "case 1 of lists::mars, seed {seed}; again by: QUECHOTZAL_SEED={seed} cargo test"
            ),
            "field 7, planet radius R, km: 9900.0 (40c3560000000000)",
            "field 9, its declination: -20.0 (c034000000000000)",
            "window 25904 to 122914096, step 30002, question 1",
            &format!("bytes: {}", told::hex(&job.encode())),
            &format!("  0: {}", interval(0)),
            &format!("> 1: {}", interval(1)),
        ],
    );
    assert_eq!(told.matches("> 1: job 1: from").count(), 2, "{told}");
}

/// Days 0 and 1, of which the second's instants are wrong, or the head.
#[test]
fn a_difference_of_totals_is_told() {
    let job = jobs::changing(1, 0.0, 30_000, 1);
    let told = told_of_a_wrong_byte(&TOTALS, job, 24 + 16 + 8);
    assert_tells(&told, &["case 1 of totals::mars", "  0: job 1: 2 days, "]);
    assert_eq!(told.matches("    1: day 0: ").count(), 2, "{told}");
    assert_eq!(told.matches("> 2: day 1: ").count(), 2, "{told}");
    let told = told_of_a_wrong_byte(&TOTALS, job, 8);
    assert_tells(&told, &["> 0: job 1: 2 days, ", "> 0: job 1: 3 days, "]);
}

fn listed(piece: &[u8]) -> (Answer, Vec<Interval>) {
    let mut list = vec![0; LONGEST_LIST];
    let answer = host::list(piece, &mut list);
    let records = list
        .chunks(INTERVAL)
        .map(|record| Interval::decode(record).unwrap());
    (answer, records.take(answer.intervals as usize).collect())
}

/// Every refusal of the program, and 3 and 4 for every field, comes up; 9 cannot.
#[test]
fn every_refusal_comes_up() {
    let mut random = Random::of("every_refusal_comes_up");
    let mut pieces = families::fields(&mut random);
    pieces.extend(families::two_faults(&mut random));
    pieces.extend(families::short_tail(&mut random));
    let answers = pieces.iter().map(|piece| listed(piece).0);
    let refusals: BTreeSet<_> = answers
        .map(|answer| (answer.refusal, answer.field))
        .collect();
    let of_fields = [3, 4]
        .into_iter()
        .flat_map(|row| (1..=13).map(move |k| (row, k)));
    let of_others = [0, 1, 2, 5, 6, 7, 8].into_iter().map(|row| (row, 0));
    assert_eq!(refusals, of_fields.chain(of_others).collect());
}

/// Half of the plausible jobs have something to list, for each planet.
#[test]
fn plausible_jobs_have_lists() {
    for family in [families::mars, families::venus, families::earth] {
        let pieces = family(&mut Random::of("plausible_jobs_have_lists"));
        let full = pieces
            .iter()
            .filter(|piece| listed(piece).0.intervals > 0)
            .count();
        assert!(2 * full > pieces.len(), "{full} of {}", pieces.len());
    }
}

/// A question and the flags of an interval, and whether that is but an instant.
type Kind = (u32, u32, bool);

/// The kinds of intervals that the pieces' lists have.
fn kinds(pieces: &[Vec<u8>]) -> BTreeSet<Kind> {
    let kinds_of = |piece: &Vec<u8>| {
        let question = Job::decode(piece).map_or(0, |job| job.question);
        let kind = move |i: Interval| (question, i.flags, i.first == i.last);
        listed(piece).1.into_iter().map(kind)
    };
    pieces.iter().flat_map(kinds_of).collect()
}

fn assert_among(expected: impl IntoIterator<Item = Kind>, kinds: &BTreeSet<Kind>) {
    for kind in expected {
        assert!(kinds.contains(&kind), "{kind:?} is not among {kinds:?}");
    }
}

/// Visible from the window's beginning, from the shadow or from a rise on, to the window's end, to
/// the shadow or to a set: each with each. Hidden from or to the window's ends, and between them.
#[test]
fn every_reason_comes_up() {
    let mut random = Random::of("every_reason_comes_up");
    let mut pieces = families::mars(&mut random);
    pieces.extend(families::venus(&mut random));
    pieces.extend(families::earth(&mut random));
    let kinds = kinds(&pieces);
    let each_last = |first: u32| [2, 16, 32].map(|last| (2, first + last, false));
    assert_among([1, 4, 8].into_iter().flat_map(each_last), &kinds);
    let of_shadows = [4 + 2, 1 + 16, 4 + 16].map(|flags| (1, flags, false));
    assert_among(of_shadows, &kinds);
}

/// Either reason and both, of which question 1 tells one, at a first and at a last; and where these
/// are but an instant, the first is t1, or the last t0.
#[test]
fn both_reasons_come_up() {
    let pieces = families::shadow_meets_horizon(&mut Random::of("both_reasons_come_up"));
    let kinds = kinds(&pieces);
    for instant in [false, true] {
        assert_among([4 + 2, 1 + 16].map(|flags| (1, flags, instant)), &kinds);
        for reasons in [1, 2, 1 + 2] {
            let ends = [4 * reasons + 2, 1 + 16 * reasons];
            assert_among(ends.map(|flags| (2, flags, instant)), &kinds);
        }
    }
}

/// The horizon's flicker makes long lists.
#[test]
fn many_rises_and_sets() {
    let pieces = families::flickering(&mut Random::of("many_rises_and_sets"));
    let from_rise_to_set = |interval: &Interval| interval.flags == 8 + 32;
    let lists = pieces.iter().flat_map(|piece| listed(piece).1);
    let count = lists.filter(from_rise_to_set).count();
    assert!(count > 100 * pieces.len(), "{count} in {}", pieces.len());
}

/// An interval begins and ends with a change, but at the window's ends.
#[test]
fn every_step_changes() {
    for piece in families::every_step_changes(&mut Random::of("every_step_changes")) {
        let (answer, intervals) = listed(&piece);
        let at_ends: u32 = intervals
            .iter()
            .map(|interval| (interval.flags & (1 + 2)).count_ones())
            .sum();
        assert_eq!(2 * answer.intervals - u64::from(at_ends), MOST_STEPS);
    }
}

/// The list that the door's totals are tried and measured with: as long as can be, over 31 days.
#[test]
fn the_longest_list_over_31_days() {
    let job = jobs::changing(1, 0.0, 650_000, 1);
    assert_eq!(lists::own(&job.encode()).len(), LONGEST_LIST);
    assert_eq!(lists::need(&job), 31 * TOTAL);
}
