//! What has to hold of any job, over seeded pseudo-random ones.

use crate::common::families;
use crate::helpers::*;
use host::program;
use host::record::{Interval, Job, INTERVAL, ORBIT};
use host::search::{find, Window};
use host::sight::Sight;
use std::cell::Cell;

/// The samples: t0, t0+step, .., and t1 last.
fn samples(job: &Job) -> Vec<u64> {
    let mut samples: Vec<u64> = (job.t0..job.t1).step_by(job.step as usize).collect();
    samples.push(job.t1);
    samples
}

/// What a list had, so that it is seen whether the jobs were worth looking at.
struct Seen {
    changed_steps: usize,
    /// All flags that came up.
    flags: u32,
}

/// Every property of one list.
fn check_list(job: &Job) -> Seen {
    let sight = Sight::of(job);
    let (answer, intervals) = run(job);
    assert_eq!(answer.refusal, 0);
    check_intervals(job, &sight, &intervals);
    let samples = samples(job);
    for &t in &samples {
        let inside = intervals.iter().any(|i| i.first <= t && t <= i.last);
        assert_eq!(inside, sight.answer(t), "sample {t}");
    }
    let steps = samples.windows(2);
    let changed_steps = steps
        .map(|step| check_step(step[0], step[1], &sight, &intervals))
        .sum();
    let (asked, sampled) = (answer.asked as usize, samples.len());
    assert!(sampled <= asked && asked <= sampled + 20 * changed_steps);
    assert_eq!(answer.asked, counted(job, &sight));
    let flags = intervals.iter().fold(0, |flags, i| flags | i.flags);
    Seen {
        changed_steps,
        flags,
    }
}

/// In order, inside the window, an instant between neighbours, and the answer
/// changes at each end.
fn check_intervals(job: &Job, sight: &Sight, intervals: &[Interval]) {
    for each in intervals {
        assert!(job.t0 <= each.first && each.first <= each.last && each.last <= job.t1);
        assert_eq!((each.job, each.flags), (job.job, flags(job, sight, each)));
        check_reasons(job, each);
        assert!(sight.answer(each.first) && sight.answer(each.last));
        assert!(each.first == job.t0 || !sight.answer(each.first - 1));
        assert!(each.last == job.t1 || !sight.answer(each.last + 1));
    }
    for pair in intervals.windows(2) {
        assert!(pair[0].last + 1 < pair[1].first, "neighbours touch");
    }
}

/// Document 01's two flags and the four of document 02, wish 1, as they are worded.
fn flags(job: &Job, sight: &Sight, each: &Interval) -> u32 {
    let (first, last) = (each.first, each.last);
    let hidden_differs = |t| sight.shadow.hidden(t) != sight.shadow.hidden(t + 1);
    let up_differs = |t| job.question == 2 && sight.station.up(t) != sight.station.up(t + 1);
    let flags = [
        (1, first == job.t0),
        (2, last == job.t1),
        (4, first != job.t0 && hidden_differs(first - 1)),
        (8, first != job.t0 && up_differs(first - 1)),
        (16, last != job.t1 && hidden_differs(last)),
        (32, last != job.t1 && up_differs(last)),
    ];
    let set = flags.iter().filter(|(_, set)| *set);
    set.map(|(flag, _)| flag).sum()
}

/// A first above t0 and a last below t1 have a reason; in question 1 it is hidden alone.
fn check_reasons(job: &Job, each: &Interval) {
    let (at_first, at_last) = (each.flags & (4 + 8), each.flags & (16 + 32));
    assert_eq!(at_first == 0, each.first == job.t0);
    assert_eq!(at_last == 0, each.last == job.t1);
    if job.question == 1 {
        assert!([0, 4].contains(&at_first) && [0, 16].contains(&at_last));
    }
}

/// A changed step holds one change, another none; 1 if changed.
fn check_step(low: u64, high: u64, sight: &Sight, intervals: &[Interval]) -> usize {
    let first_here = |i: &&Interval| low < i.first && i.first <= high;
    let last_here = |i: &&Interval| low <= i.last && i.last < high;
    let firsts = intervals.iter().filter(first_here).count();
    let lasts = intervals.iter().filter(last_here).count();
    let (before, after) = (sight.answer(low), sight.answer(high));
    assert_eq!(firsts, usize::from(!before && after), "{low} to {high}");
    assert_eq!(lasts, usize::from(before && !after), "{low} to {high}");
    firsts + lasts
}

/// The instants asked, counted by the one who answers.
fn counted(job: &Job, sight: &Sight) -> u64 {
    let count = Cell::new(0);
    let window = Window {
        t0: job.t0,
        t1: job.t1,
        step: u64::from(job.step),
    };
    let answer = |t| {
        count.set(count.get() + 1);
        sight.answer(t)
    };
    find(window, answer, |_, _| ());
    count.get()
}

#[test]
fn lists_of_random_jobs() {
    let mut random = Random::of("lists_of_random_jobs");
    let (mut changed, mut with_two, mut flags) = (0, 0, 0);
    for _ in 0..600 {
        let seen = check_list(&random.job());
        changed += seen.changed_steps;
        with_two += usize::from(seen.changed_steps >= 2);
        flags |= seen.flags;
    }
    assert!(
        changed > 1000 && with_two > 80 && flags == 63,
        "too tame: {changed}, {with_two}, {flags}"
    );
}

/// Both reasons at an end, and many ends: what random jobs do not have.
#[test]
fn lists_of_shadow_and_horizon() {
    let mut random = Random::of("lists_of_shadow_and_horizon");
    let mut pieces = families::shadow_meets_horizon(&mut random);
    pieces.extend(families::flickering(&mut random).into_iter().take(4));
    for piece in pieces {
        check_list(&Job::decode(&piece).unwrap());
    }
}

#[test]
fn answers_agree_with_floats_away_from_the_border() {
    let mut random = Random::of("answers_agree_with_floats_away_from_the_border");
    let (mut hidden, mut up, mut near) = (0, 0, 0);
    for _ in 0..400 {
        let job = random.job();
        let sight = Sight::of(&job);
        for _ in 0..20 {
            let t = random.below(2_678_400_000);
            let (shadow, height) = by_floats(&job.fields, t);
            if shadow.abs() < 1e-4 || height.abs() < 1e-4 {
                near += 1;
                continue;
            }
            assert_eq!(sight.shadow.hidden(t), shadow > 0.0, "{job:?} at {t}");
            assert_eq!(sight.station.up(t), height > 0.0, "{job:?} at {t}");
            assert_eq!(sight.visible(t), height > 0.0 && shadow < 0.0);
            hidden += usize::from(shadow > 0.0);
            up += usize::from(height > 0.0);
        }
    }
    assert!(
        hidden > 300 && up > 300 && near < 100,
        "{hidden}, {up}, {near}"
    );
}

/// The same questions in floats and another way round: the place turned into
/// the equator's frame step by step. Positive: hidden, up.
fn by_floats(fields: &[f64; 13], t: u64) -> (f64, f64) {
    let rad = |k: usize| fields[k - 1].to_radians();
    let (a, e, R) = (fields[0], fields[1], fields[6]);
    let p = (fields[5] * 1000.0 + 0.5).floor();
    let turn = 2.0 * std::f64::consts::PI;
    let M = (t as f64 % p) / p * turn;
    let (mut low, mut high) = (0.0, turn);
    for _ in 0..60 {
        let middle = (low + high) / 2.0;
        if middle - e * f64::sin(middle) <= M {
            low = middle;
        } else {
            high = middle;
        }
    }
    let place = [
        a * (low.cos() - e),
        a * (1.0 - e * e).sqrt() * low.sin(),
        0.0,
    ];
    let place = about_z(about_x(about_z(place, rad(5)), rad(3)), rad(4));
    let E = about_z(about_y([1.0, 0.0, 0.0], rad(9)), rad(8));
    let d = dot(place, E);
    let off = (dot(place, place) - d * d).max(0.0).sqrt();
    let shadow = ((R - off) / a).min(-d / a);
    let turned = (t as f64 / STATION_TURN).fract() * turn;
    let tau = rad(11) + rad(12) + turned;
    let u = about_z(about_y([1.0, 0.0, 0.0], rad(10)), tau);
    (shadow, -dot(u, E) - rad(13).sin())
}

fn dot(a: [f64; 3], b: [f64; 3]) -> f64 {
    a[0] * b[0] + a[1] * b[1] + a[2] * b[2]
}

fn about_z([x, y, z]: [f64; 3], by: f64) -> [f64; 3] {
    let (s, c) = by.sin_cos();
    [c * x - s * y, s * x + c * y, z]
}

fn about_x([x, y, z]: [f64; 3], by: f64) -> [f64; 3] {
    let (s, c) = by.sin_cos();
    [x, c * y - s * z, s * y + c * z]
}

/// Lifts the x axis toward z.
fn about_y([x, y, z]: [f64; 3], by: f64) -> [f64; 3] {
    let (s, c) = by.sin_cos();
    [c * x - s * z, y, s * x + c * z]
}

#[test]
fn every_corner_of_the_ranges() {
    let mut accepted = 0;
    for corner in 0..1u32 << 14 {
        let mut job = job7_in(2_678_000_000, 2_678_400_000, 200_001);
        for (k, (least, most, with_most)) in ACCEPTED.into_iter().enumerate() {
            let top = if with_most { most } else { most.next_down() };
            job.fields[k] = if corner >> k & 1 == 0 { least } else { top };
        }
        job.question = 1 + (corner >> 13);
        let (answer, _) = run(&job);
        assert!(answer.refusal == 0 || answer.refusal == 5);
        accepted += u32::from(answer.refusal == 0);
    }
    // Closest distances 100, 5, 250,000 and 12,500 km against radii of 1 and
    // 100,000 km: five of the eight pairs are accepted.
    assert_eq!(accepted, (1 << 14) / 8 * 5);
}

#[test]
fn any_bytes_are_answered() {
    let mut random = Random::of("any_bytes_are_answered");
    let mut refusals = [0; 10];
    for round in 0..4000 {
        let mut record = random.job().encode();
        for _ in 0..random.below(4) {
            let at = random.below(ORBIT as u64) as usize;
            record[at] = random.bits() as u8;
        }
        if round % 10 == 1 {
            let at = 8 + 8 * random.below(13) as usize;
            record[at + 6..at + 8].copy_from_slice(&[0xF7, 0x7F]); // a NaN
        }
        if round % 10 == 0 {
            record = std::array::from_fn(|_| random.bits() as u8);
        }
        let room = random.below(2500) as usize;
        let (answer, intervals) = answer_of(&record, room);
        assert_eq!(answer.intervals, intervals.len() as u64);
        assert_eq!(answer.refusal == 0, answer.asked > 0);
        refusals[answer.refusal as usize] += 1;
    }
    for number in [0, 2, 3, 4, 5, 6, 7, 8, 9] {
        assert!(refusals[number] > 0, "{refusals:?}");
    }
    let noise = random.bytes(5000);
    for length in [0usize, 1, 135, 136, 137, 272, 5000] {
        let records = length.div_ceil(ORBIT);
        assert_eq!(program(&noise[..length]).len(), records * INTERVAL);
    }
}
