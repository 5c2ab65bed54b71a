//! Intervals that begin with a rise and end with a set of the planet.

use super::super::jobs::{self, over, DAY, LONGEST_STEP, MARS, MONTH, MOST_STEPS, TURN, UNIT};
use super::super::random::Random;
use super::{digit, Pieces};
use host::record::Job;
use host::search::{find, halve, Window};
use host::sight::{station_term, Sight, Station};
use host::sine;
use host::whole::{angle, Whole, QUARTER};
use std::iter;

/// The planet rises at the instant at which the craft comes out of its shadow, or sets at that at
/// which it goes in, or a ms beside it; there the window begins or ends, or it goes on.
pub fn shadow_meets_horizon(random: &mut Random) -> Pieces {
    let met = |mut number| {
        let question = digit(&mut number, &[1, 2]);
        let rise = digit(&mut number, &[true, false]);
        let later = digit(&mut number, &[0, 1, 2]);
        let mut jobs = iter::repeat_with(|| jobs::slow(random, question));
        let (job, end) = jobs.find_map(|job| meeting(job, rise, later)).unwrap();
        let beside = [0, 1, random.between(2, 500)];
        let t0 = end.saturating_sub(digit(&mut number, &beside));
        let t1 = (end + digit(&mut number, &beside)).max(t0 + 1);
        let step = digit(&mut number, &[1, 7, LONGEST_STEP]);
        over(job, t0, t1, step).encode().to_vec()
    };
    (0..2 * 2 * 3 * 3 * 3 * 3 * 2).map(met).collect()
}

/// The job with Greenwich so that they meet where `later` is 1, and the end of an interval that is
/// there. None where the craft is not hidden for long, or the planet does not rise.
fn meeting(mut job: Job, rise: bool, later: u64) -> Option<(Job, u64)> {
    let sight = Sight::of(&job);
    let lit = an_end(MONTH / 2, rise, |t| !sight.shadow.hidden(t))?;
    let up = an_end(DAY, rise, |t| sight.station.up(t))?;
    let turned = lit - 1 + later;
    let greenwich = angle(job.fields[11])
        .wrapping_add(station_term(up))
        .wrapping_sub(station_term(turned));
    job.fields[11] = f64::from(greenwich) * UNIT;
    let end = match (job.question, rise) {
        (1, true) => lit - 1,
        (1, false) => lit + 1,
        (_, true) => lit.max(turned),
        (_, false) => lit.min(turned),
    };
    Some((job, end))
}

/// A first, or a last, between 0 and t1.
fn an_end(t1: u64, first: bool, answer: impl Fn(u64) -> bool) -> Option<u64> {
    let (t0, step) = (0, LONGEST_STEP);
    let mut ends = vec![];
    find(Window { t0, t1, step }, answer, |f, l| {
        ends.push(if first { f } else { l })
    });
    ends.into_iter().find(|end| ![t0, t1].contains(end))
}

/// The planet gets just as high as is asked. It is highest in the middle between two entries of the
/// sine, where its height stands still but for the rounding: it rises and sets from ms to ms.
pub fn flickering(random: &mut Random) -> Pieces {
    let flicker = |_| {
        let mut job = jobs::plausible(random, MARS, 2);
        let segment = f64::from(QUARTER) / sine::LAST as f64 * UNIT;
        let entry = random.below(4 * sine::LAST as u64) as f64;
        job.fields[7] = (entry + 0.5) * segment;
        let moment = (jobs::highest(&job) + TURN) as u64;
        job.fields[12] = elevation(job, moment);
        let t0 = moment - MOST_STEPS / 2;
        over(job, t0, t0 + MOST_STEPS, 1).encode().to_vec()
    };
    (0..20).map(flicker).collect()
}

/// The greatest least elevation with which the planet is up.
fn elevation(job: Job, t: u64) -> f64 {
    let up_with = |least: u64| {
        let mut fields = job.fields;
        fields[12] = least as f64 * UNIT;
        Station::of(&Whole::of(&fields)).up(t)
    };
    let (least, ..) = halve(0, u64::from(QUARTER), true, &up_with);
    least as f64 * UNIT
}
