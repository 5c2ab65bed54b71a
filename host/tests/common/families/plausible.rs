//! Jobs as a desk would send them, and accepted jobs in which every unit counts.

use super::super::jobs::{self, around_a_change, over, Planet, EARTH, MARS, UNIT, VENUS};
use super::super::random::Random;
use super::Pieces;
use host::record::Job;

/// So many jobs, question 1 and 2 in turn.
fn jobs(count: u32, mut job: impl FnMut(u32) -> Job) -> Pieces {
    (0..count)
        .map(|k| job(1 + k % 2).encode().to_vec())
        .collect()
}

fn around(random: &mut Random, planet: Planet) -> Pieces {
    jobs(1_000, |question| jobs::plausible(random, planet, question))
}

pub fn mars(random: &mut Random) -> Pieces {
    around(random, MARS)
}

pub fn venus(random: &mut Random) -> Pieces {
    around(random, VENUS)
}

pub fn earth(random: &mut Random) -> Pieces {
    around(random, EARTH)
}

pub fn slow(random: &mut Random) -> Pieces {
    jobs(1_000, |question| {
        let job = jobs::slow(random, question);
        around_a_change(random, job)
    })
}

/// Fields whose whole number lies exactly between two, and the floats next to such ones.
pub fn halves(random: &mut Random) -> Pieces {
    jobs(1_000, |question| {
        let mut job = jobs::slow(random, question);
        for k in 1..=13 {
            let half = half_near(k, job.fields[k - 1]);
            job.fields[k - 1] = random.one_of(&[half, half.next_up(), half.next_down()]);
        }
        around_a_change(random, job)
    })
}

/// Numbers halfway between two metres, ms, units of e or of an angle, which are exact in binary: the
/// odd multiples of 62.5 m and of 62.5 ms, of 2^-31, and of 360 degrees / 2^33.
fn half_near(k: usize, x: f64) -> f64 {
    let half = match k {
        1 | 6 | 7 => 1.0 / 16.0,
        2 => 1.0 / 2_147_483_648.0,
        _ => UNIT / 2.0,
    };
    ((x / half) as i64 | 1) as f64 * half
}

/// Axes that meet at multiples of 30 and 45 degrees, so that many numbers are equal that are
/// compared: the dish at a pole sees the far body just at its least elevation.
pub fn aligned(random: &mut Random) -> Pieces {
    const ANGLES: [f64; 8] = [0.0, 30.0, 45.0, 90.0, 135.0, 180.0, 270.0, 330.0];
    jobs(1_000, |question| {
        let mut job = jobs::slow(random, question);
        for k in [4, 5, 8, 11, 12] {
            job.fields[k - 1] = random.one_of(&ANGLES);
        }
        let least = random.one_of(&ANGLES[..4]);
        let south = random.one_of(&[1.0, -1.0]);
        job.fields[1] = random.one_of(&[0.0, 0.5, 0.75]);
        job.fields[2] = random.one_of(&ANGLES[..6]);
        job.fields[6] = random.float(1.0, 25.0).floor();
        job.fields[8] = -south * least;
        job.fields[9] = south * 90.0;
        job.fields[12] = least + random.one_of(&[0.0, 0.0, UNIT]).min(90.0 - least);
        around_a_change(random, job)
    })
}

/// A craft that just touches the shadow, or a far body that just gets as high as is asked; the
/// window is the moment when it does.
pub fn grazing(random: &mut Random) -> Pieces {
    jobs(1_000, |question| {
        let job = jobs::slow(random, question);
        if question == 1 {
            touching(random, job)
        } else {
            culminating(random, job)
        }
    })
}

/// In the plane of the equator, with the far body 30 degrees from it, the axis of the shadow is
/// half the radius of the orbit away at the least.
fn touching(random: &mut Random, mut job: Job) -> Job {
    let (axis, period, ascension) = (job.fields[0].min(190_000.0), job.fields[5], job.fields[7]);
    job.fields[0] = axis;
    job.fields[1..5].fill(0.0);
    job.fields[6] = axis / 2.0 + 1e-5 * axis * random.float(-1.0, 1.0);
    job.fields[8] = random.one_of(&[30.0, -30.0]);
    let moment = (ascension + 180.0) % 360.0 / 360.0 * period * 1_000.0;
    about(random, job, moment, 10_000)
}

fn culminating(random: &mut Random, mut job: Job) -> Job {
    let [.., declination, latitude, _, _, _] = job.fields;
    let highest = 90.0 - (latitude + declination).abs();
    job.fields[12] = (highest + UNIT * random.float(-200.0, 200.0)).clamp(0.0, 90.0);
    job.fields[6] = 1.0;
    about(random, job, jobs::highest(&job), 1_000)
}

fn about(random: &mut Random, job: Job, moment: f64, step: u64) -> Job {
    let t0 = (moment as u64).saturating_sub(random.between(30, 50) * step);
    over(job, t0, t0 + 80 * step, step)
}
