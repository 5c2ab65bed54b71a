//! Report 002, "An example", page 11: an orbit of Mars, and Goldstone.

use crate::printed::*;
use crate::programs::*;
use host::record::Interval;
use std::f64::consts::TAU;

const DAY: u64 = 86_400_000;
/// Document 02, wish 2: one turn of the station, by the stars.
const TURN_MINUTES: f64 = 86164.0905 / 60.0;

/// The report does not print Greenwich's right ascension, nor the period, which follows from its gravitational constant.
fn around_mars(greenwich: f64) -> Fields {
    let axis: f64 = 5.0 * 3393.4;
    let period = TAU * (axis.powi(3) / 42977.8).sqrt();
    let orbit = [axis, 0.5, 5.0, 5.0, 45.0, period, 3393.4];
    fields(orbit, [180.0, 0.0], [35.24, 243.11, greenwich, 5.0])
}

fn three_days(greenwich: f64, question: u32) -> Vec<Interval> {
    list(&job(around_mars(greenwich), 0, 3 * DAY, 600_000, question))
}

/// Visible is up and not hidden: where a hidden interval fills the gap between two visible ones to the millisecond, Mars was
/// up all the time.
fn up(visible: &[Interval], hidden: &[Interval]) -> Vec<[u64; 2]> {
    let mut up: Vec<[u64; 2]> = Vec::new();
    for next in visible {
        let gap = up.last().map(|last| [last[1] + 1, next.first - 1]);
        match up.last_mut() {
            Some(last) if hidden.iter().any(|h| Some([h.first, h.last]) == gap) => {
                last[1] = next.last
            }
            _ => up.push([next.first, next.last]),
        }
    }
    up
}

/// No times are printed. By hand, with Greenwich at 0 and a turn in 86,164.0905 s: the half arc is acos(sin 5° / cos 35.24°) =
/// 83.8742212°, and the transit comes (360 − 243.11)/360 of a turn after the epoch, then a turn later each time, which is
/// 235.9095 s short of a day. Mars hides the craft once on the second and the third day while it is up: a pass from rise to
/// set, and two from rise to Mars and from Mars to set.
#[test]
fn an_example_mars_over_goldstone() {
    let half_arc = (5.0f64.to_radians().sin() / 35.24f64.to_radians().cos())
        .acos()
        .to_degrees();
    let minute = |degrees: f64| degrees / 360.0 * TURN_MINUTES;
    let (rise, set) = (
        minute(360.0 - 243.11 - half_arc),
        minute(360.0 - 243.11 + half_arc),
    );
    assert_near(131.7025256, rise, 5e-8, "rise, minutes");
    assert_near(800.8641909, set, 5e-8, "set, minutes");
    let (visible, hidden) = (three_days(0.0, 2), three_days(0.0, 1));
    let up = up(&visible, &hidden);
    assert_eq!([visible.len(), hidden.len(), up.len()], [5, 3, 3]);
    let flags: Vec<u32> = visible.iter().map(|pass| pass.flags).collect();
    assert_eq!(flags, [8 + 32, 8 + 16, 4 + 32, 8 + 16, 4 + 32]);
    for (turn, [first, last]) in (0..).zip(up) {
        let ms = |minute: f64| (f64::from(turn) * TURN_MINUTES + minute) * 60_000.0;
        assert_near(ms(rise), first as f64, 1.0, "rise, ms");
        assert_near(ms(set), last as f64, 1.0, "set, ms");
    }
}

/// "Earth occultation accounted for over 93% of lost visibility time": of the time not visible, all but what is hidden by Mars.
/// It is so whatever Greenwich's right ascension was; the finite speed of light, which the report's program has, moves the
/// three shadows and does not lengthen them.
#[test]
fn an_example_earth_takes_over_93_percent() {
    let lasting = |list: &[Interval]| list.iter().map(|i| i.last - i.first + 1).sum::<u64>() as f64;
    let by_mars = lasting(&three_days(0.0, 1));
    for greenwich in (0..360).step_by(30) {
        let lost = 3.0 * DAY as f64 - lasting(&three_days(f64::from(greenwich), 2));
        let by_earth = (lost - by_mars) / lost;
        assert!(
            (0.93..0.95).contains(&by_earth),
            "{by_earth} with Greenwich at {greenwich}"
        );
    }
}
