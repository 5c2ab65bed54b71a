//! Jobs to start from: plausible ones, and what can be changed in them.

use super::random::Random;
use host::record::{Interval, Job, INTERVAL};
use host::{refusal, sight, Answer};
use std::f64::consts::TAU;

/// Document 01, One job whole: job 7.
pub fn job7() -> Job {
    let mut fields = [0.0; 13];
    fields[0] = 10000.0;
    fields[5] = 7200.0;
    fields[6] = 5000.0;
    Job {
        job: 7,
        word: 0,
        fields,
        t0: 0,
        t1: 7_200_000,
        step: 600_000,
        question: 1,
    }
}

/// One unit of angle, in degrees.
pub const UNIT: f64 = 360.0 / 4_294_967_296.0;
pub const DAY: u64 = 86_400_000;
/// A turn of the station, in ms.
pub const TURN: f64 = sight::TEN_TURNS as f64 / 10.0;
pub const MONTH: u64 = refusal::LATEST;
pub const LONGEST_STEP: u64 = refusal::LONGEST_STEP as u64;
pub const MOST_STEPS: u64 = refusal::MOST_STEPS;
/// Bytes of room for any list.
pub const LONGEST_LIST: usize = INTERVAL * (MOST_STEPS as usize + 1).div_ceil(2);

/// A planet's radius in km, and its pull GM in km³/s².
#[derive(Clone, Copy)]
pub struct Planet {
    pub radius: f64,
    pub pull: f64,
}

pub const MARS: Planet = Planet {
    radius: 3393.4,
    pull: 42_828.0,
};
pub const VENUS: Planet = Planet {
    radius: 6051.8,
    pull: 324_859.0,
};
pub const EARTH: Planet = Planet {
    radius: 6378.1,
    pull: 398_600.0,
};
pub const PLANETS: [Planet; 3] = [MARS, VENUS, EARTH];

/// A craft around the planet, watched from a dish, over 10 to 200 steps.
pub fn plausible(random: &mut Random, planet: Planet, question: u32) -> Job {
    let e = random.float(0.0, 0.9);
    eccentric(random, planet, question, e)
}

/// Such a craft on an orbit of that eccentricity.
pub fn eccentric(random: &mut Random, planet: Planet, question: u32, e: f64) -> Job {
    let axis = (planet.radius + random.float(150.0, 5_000.0)) / (1.0 - e);
    let period = TAU * (axis * axis * axis / planet.pull).sqrt();
    let turn = |random: &mut Random| random.float(0.0, 359.9);
    let fields = [
        axis,
        e,
        random.float(0.0, 180.0),
        turn(random),
        turn(random),
        period,
        planet.radius,
        turn(random),
        random.float(-27.0, 27.0),
        random.float(-60.0, 60.0),
        turn(random),
        turn(random),
        random.float(0.0, 20.0),
    ];
    let job = Job {
        job: random.bits() as u32,
        word: 0,
        fields,
        t0: 0,
        t1: 0,
        step: 0,
        question,
    };
    let (steps, step) = (random.between(10, 200), random.between(1_000, LONGEST_STEP));
    windowed(random, job, steps, step)
}

/// The job over a window of so many steps, somewhere in the month; the last is mostly shorter.
pub fn windowed(random: &mut Random, job: Job, steps: u64, step: u64) -> Job {
    let length = steps * step - random.between(0, step - 1);
    let t0 = random.between(0, MONTH - length);
    over(job, t0, t0 + length, step)
}

pub fn over(job: Job, t0: u64, t1: u64, step: u64) -> Job {
    let step = step as u32;
    Job {
        t0,
        t1,
        step,
        ..job
    }
}

/// A plausible job around any of the planets.
pub fn any(random: &mut Random) -> Job {
    let planet = random.one_of(&PLANETS);
    let question = random.between(1, 2) as u32;
    plausible(random, planet, question)
}

/// The smallest and the widest orbits with the longest periods: so slow that a metre, or a unit of
/// an angle, of e or of a sine, more or less moves a change.
pub fn slow(random: &mut Random, question: u32) -> Job {
    let mut job = plausible(random, MARS, question);
    let (least, most) = random.one_of(&[(100.0, 300.0), (100_000.0, 250_000.0)]);
    job.fields[0] = random.float(least, most);
    job.fields[5] = random.float(1_000_000.0, 2_000_000.0);
    let closest = job.fields[0] * (1.0 - job.fields[1]);
    job.fields[6] = (random.float(0.5, 0.99) * closest).min(99_000.0);
    job
}

/// The job over a few steps around one of its changes in the month, as the independent
/// implementation finds them; over any few steps where there is none.
pub fn around_a_change(random: &mut Random, job: Job) -> Job {
    let steps = random.between(2, 20);
    let step = random.between(1, 1_000_000);
    let placed = windowed(random, job, steps, step);
    let (changes, length) = (changes(job), placed.t1 - placed.t0);
    if changes.is_empty() {
        return placed;
    }
    let t0 = random
        .one_of(&changes)
        .saturating_sub(random.between(0, length))
        .min(MONTH - length);
    over(job, t0, t0 + length, step)
}

/// The ends of the job's intervals in the month, but for the month's own ends.
pub fn changes(job: Job) -> Vec<u64> {
    let mut list = vec![0; LONGEST_LIST];
    let month = over(job, 0, MONTH, LONGEST_STEP);
    let intervals = host::list(&month.encode(), &mut list).intervals as usize;
    let ends = |record| Interval::decode(record).map_or([0, 0], |r| [r.first, r.last]);
    let ends = list.chunks(INTERVAL).take(intervals).flat_map(ends);
    ends.filter(|end| ![0, MONTH].contains(end)).collect()
}

/// When the planet is highest in the first turn, in ms: it stands in the south or in the north.
pub fn highest(job: &Job) -> f64 {
    let [.., ascension, _, _, longitude, greenwich, _] = job.fields;
    (ascension + 900.0 - longitude - greenwich) % 360.0 / 360.0 * TURN
}

/// A change in each of 4,096 steps: a step is an odd number of half turns and a little more, and
/// the craft is behind the planet where it is farthest from it. The little more makes each search
/// for a change another one. The dish at the pole always has the far body above it.
pub fn changing(question: u32, e: f64, half_turn: u64, half_turns: u64) -> Job {
    let axis = 10_000.0;
    let radius = 0.99 * axis * (1.0 - e);
    let period = (2 * half_turn) as f64 / 1_000.0;
    let fields = [
        axis, e, 0.0, 0.0, 0.0, period, radius, 0.0, -20.0, 90.0, 0.0, 0.0, 5.0,
    ];
    let more = half_turn / 12_800;
    let (t0, step) = (
        half_turn - MOST_STEPS / 2 * more,
        half_turn * half_turns + more,
    );
    Job {
        job: 1,
        word: 0,
        fields,
        t0,
        t1: t0 + MOST_STEPS * step,
        step: step as u32,
        question,
    }
}

/// Field k = 1..13 of a record, by its bits: a NaN's stay as they are.
pub fn put_field(record: &mut [u8], k: usize, bits: u64) {
    let at = 8 * k;
    record[at..at + 8].copy_from_slice(&bits.to_le_bytes());
}

/// The job's own refusals in order, each with all that come after it: the record, and what is
/// answered. 9 is not among them.
pub fn refused_jobs() -> Vec<(Vec<u8>, Answer)> {
    let question = Job {
        question: 0,
        ..job7()
    };
    let step = Job {
        step: 0,
        ..question
    };
    let window = Job { t1: 0, ..step };
    let mut distance = window;
    distance.fields[6] = 20_000.0;
    let mut range = distance;
    range.fields[12] = 91.0;
    let mut not_finite = range;
    not_finite.fields[1] = f64::NAN;
    let word = Job {
        word: 1,
        ..not_finite
    };
    let refused = |job: Job, refusal, field, number| {
        let answer = Answer::refused(refusal, field, number);
        (job.encode().to_vec(), answer)
    };
    vec![
        (word.encode()[1..].to_vec(), Answer::refused(1, 0, 0)),
        refused(word, 2, 0, 0),
        refused(not_finite, 3, 2, f64::NAN.to_bits()),
        refused(range, 4, 13, 91f64.to_bits()),
        refused(distance, 5, 0, 10_000f64.to_bits()),
        refused(window, 6, 0, 0),
        refused(step, 7, 0, 0),
        refused(question, 8, 0, 0),
    ]
}
