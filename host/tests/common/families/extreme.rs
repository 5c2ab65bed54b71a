//! Accepted jobs at the ends of what is accepted.

use super::super::jobs::{self, over, DAY, LONGEST_STEP, MONTH, MOST_STEPS, TURN};
use super::super::random::Random;
use super::{digit, Pieces};
use host::record::Job;
use host::refusal::{Range, RANGES};

/// Steps that part the last day, and the whole month, in 4,096.
const OF_THE_DAY: u64 = DAY.div_ceil(MOST_STEPS);
const OF_THE_MONTH: u64 = MONTH.div_ceil(MOST_STEPS);

/// Windows with their steps: 1 ms, the last day, the whole month; steps of 1 and of 1,048,576, one
/// step and 4,096.
const WINDOWS: [(u64, u64, u64); 12] = [
    (0, 1, 1),
    (0, 1, LONGEST_STEP),
    (0, MOST_STEPS, 1),
    (0, LONGEST_STEP, LONGEST_STEP),
    (0, LONGEST_STEP + 1, LONGEST_STEP),
    (MONTH - 1, MONTH, 1),
    (MONTH - 1, MONTH, LONGEST_STEP),
    (MONTH - MOST_STEPS, MONTH, 1),
    (MONTH - DAY, MONTH, LONGEST_STEP),
    (MONTH - DAY, MONTH, OF_THE_DAY),
    (0, MONTH, OF_THE_MONTH),
    (0, MONTH, LONGEST_STEP),
];

/// Every combination of round and most eccentric, equatorial, polar and retrograde, each of the
/// windows and both questions.
pub fn corners(random: &mut Random) -> Pieces {
    let corner = |mut number| {
        let mut job = jobs::any(random);
        job.question = digit(&mut number, &[1, 2]);
        job.fields[1] = digit(&mut number, &[0.0, 0.95]);
        job.fields[2] = digit(&mut number, &[0.0, 90.0, 120.0, 180.0]);
        job.fields[5] = random.one_of(&[60.0, 6_000.0, TURN / 1_000.0, 2_000_000.0]);
        job.fields[6] = (random.float(0.02, 0.99) * closest(&job)).min(100_000.0);
        let (t0, t1, step) = digit(&mut number, &WINDOWS);
        over(job, t0, t1, step).encode().to_vec()
    };
    (0..2 * 2 * 4 * WINDOWS.len()).map(corner).collect()
}

/// The closest distance, as near as is needed to stay below it.
fn closest(job: &Job) -> f64 {
    job.fields[0] * (1.0 - job.fields[1])
}

/// Each field at an end of its range, next to it, or anywhere in it.
pub fn shapes(random: &mut Random) -> Pieces {
    let shape = |_| {
        let mut job = jobs::any(random);
        for (field, range) in job.fields.iter_mut().zip(RANGES) {
            *field = extreme(random, range);
        }
        let most = closest(&job).next_down().clamp(1.0, 100_000.0);
        job.fields[6] = random.one_of(&[1.0, most, most / 2.0, 0.9 * most]).max(1.0);
        job.encode().to_vec()
    };
    (0..1_000).map(shape).collect()
}

fn extreme(random: &mut Random, range: Range) -> f64 {
    let Range {
        least,
        most,
        with_most,
    } = range;
    let last = if with_most { most } else { most.next_down() };
    let middle = least / 2.0 + last / 2.0;
    let anywhere = random.float(least, last);
    random.one_of(&[
        least,
        least.next_up(),
        middle,
        anywhere,
        anywhere,
        last.next_down(),
        last,
    ])
}

/// Plausible orbits over windows and steps of every size.
pub fn windows_and_steps(random: &mut Random) -> Pieces {
    let sized = |_| {
        let job = jobs::any(random);
        let steps = random.one_of(&[1, 1, 2, 3, 100, MOST_STEPS - 1, MOST_STEPS]);
        let step = random.one_of(&[1, 1, 2, 3, 1_000, OF_THE_DAY, OF_THE_MONTH - 1]);
        jobs::windowed(random, job, steps, step).encode().to_vec()
    };
    (0..400).map(sized).collect()
}

/// Windows that begin or end at a change, or a ms beside it: intervals of one instant, at either
/// end.
pub fn changes_at_the_ends(random: &mut Random) -> Pieces {
    let change_at_an_end = |mut number| {
        let beside = digit(&mut number, &[0, 1, 2]);
        let before = digit(&mut number, &[true, false]);
        let job = jobs::slow(random, digit(&mut number, &[1, 2]));
        let Some(change) = jobs::changes(job).pop() else {
            return job.encode().to_vec();
        };
        let (end, length) = (change - 1 + beside, random.between(1, 500));
        let (t0, t1) = if before {
            (end - length.min(end), end)
        } else {
            (end, end + length)
        };
        let step = random.one_of(&[1, length, LONGEST_STEP]);
        over(job, t0, t1, step).encode().to_vec()
    };
    (0..600).map(change_at_an_end).collect()
}

/// The longest lists, and the most halvings: with the shortest period, and with one as long as two
/// steps.
pub fn every_step_changes(_: &mut Random) -> Pieces {
    let job = |mut number| {
        let question = digit(&mut number, &[1, 2]);
        let (half_turn, half_turns) =
            digit(&mut number, &[(30_000, 1), (30_000, 21), (650_000, 1)]);
        let e = digit(&mut number, &[0.0, 0.4]);
        jobs::changing(question, e, half_turn, half_turns)
            .encode()
            .to_vec()
    };
    (0..2 * 3 * 2).map(job).collect()
}
