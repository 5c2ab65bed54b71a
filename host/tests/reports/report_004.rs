//! Report 004, appendix C, page 62 on: orbits of the Earth.

use crate::printed::*;
use crate::programs::*;

/// One run of appendix C: what PARAM prints, and the period in minutes, PER, from appendix B.
struct Imp6 {
    angles: Angles,
    e: f64,
    axis: f64,
    minor: f64,
    period: f64,
}

/// P5 and P2 of appendix B.
const RUN_1: Imp6 = Imp6 {
    angles: [29.8448, 229.419, 306.509],
    e: 0.93106,
    axis: 109053.825,
    minor: 39787.95033,
    period: 5973.362,
};
const RUN_2: Imp6 = Imp6 {
    angles: [28.825, 233.196, 302.533],
    e: 0.939560665,
    axis: 108782.8053,
    minor: 37368.9935,
    period: 5956.1,
};

impl Imp6 {
    /// The Earth's radius, RE, is that of the half Earth angles.
    fn fields(&self, body: Body) -> Fields {
        let [i, node, argument] = self.angles;
        fields(
            [
                self.axis,
                self.e,
                i,
                node,
                argument,
                60.0 * self.period,
                6378.165,
            ],
            body,
            [0.0; 4],
        )
    }

    /// The right ascension of perigee: equations 21 to 23.
    fn perigee(&self) -> f64 {
        let [i, node, argument] = self.angles.map(f64::to_radians);
        turned(node - (argument.cos() / (argument.sin() * i.sin()).asin().cos()).acos())
    }

    /// TIME(DYS,HRS,MINS) TO/FROM PERIGEE, at right ascensions `first`, `first` + `step` and so on. The listing (TRUN, line 14)
    /// takes the time at the difference in right ascension from perigee, where the text has the angle in the orbit; so at
    /// the printed time the true anomaly is that difference. And it divides by an area with the semiminor axis of apogee and
    /// perigee, which is not quite the eccentricity's; so its times are too long by axis·√(1 − e²) / minor.
    fn times_are(&self, first: f64, step: f64, printed: &[Time]) {
        let shorter = self.minor / (self.axis * (1.0 - self.e * self.e).sqrt());
        let ms = |&(d, h, m): &Time| (f64::from(24 * d + h) * 60.0 + m) * 60_000.0 * shorter;
        let instants: Vec<u64> = printed.iter().map(|time| ms(time).round() as u64).collect();
        for (k, place) in places(self.fields([0.0, 0.0]), &instants)
            .iter()
            .enumerate()
        {
            let from_perigee = (first + step * k as f64 - self.perigee()).rem_euclid(360.0);
            let printed = from_perigee.min(360.0 - from_perigee);
            assert_near(
                printed,
                place.true_anomaly(),
                0.0001,
                &format!("at {} ms", instants[k]),
            );
        }
    }
}

/// Days, hours and minutes.
type Time = (u32, u32, f64);

/// At right ascensions 0, 10 and so on, to 350 degrees.
const FIRST_RUN: [Time; 36] = [
    (2, 1, 29.17891525),
    (1, 0, 35.13592133),
    (0, 11, 10.65838321),
    (0, 5, 31.81984186),
    (0, 3, 5.513999278),
    (0, 1, 55.32072163),
    (0, 1, 17.76837369),
    (0, 0, 55.68119562),
    (0, 0, 41.61265283),
    (0, 0, 32.02912672),
    (0, 0, 25.11509423),
    (0, 0, 19.87162173),
    (0, 0, 15.71535082),
    (0, 0, 12.28699651),
    (0, 0, 9.353978813),
    (0, 0, 6.758035295),
    (0, 0, 4.385471208),
    (0, 0, 2.149263481),
    (0, 0, 0.02250769569),
    (0, 0, 2.19494566),
    (0, 0, 4.433223217),
    (0, 0, 6.809482583),
    (0, 0, 9.411168757),
    (0, 0, 12.35269294),
    (0, 0, 15.79350703),
    (0, 0, 19.96818935),
    (0, 0, 25.23948341),
    (0, 0, 32.19698918),
    (0, 0, 41.85150603),
    (0, 0, 56.04256214),
    (0, 1, 18.35600985),
    (0, 1, 56.36190792),
    (0, 3, 7.555267506),
    (0, 5, 36.29487557),
    (0, 11, 21.38627963),
    (1, 0, 59.45282956),
];

#[test]
fn appendix_c_time_from_perigee_first_run() {
    RUN_1.times_are(0.0, 10.0, &FIRST_RUN);
}

/// At right ascensions 20, 21 and so on, to 39 degrees.
const SECOND_RUN: [Time; 20] = [
    (0, 9, 22.71690996),
    (0, 8, 39.86207636),
    (0, 8, 0.9080598329),
    (0, 7, 25.48327796),
    (0, 6, 53.24765124),
    (0, 6, 23.89147269),
    (0, 5, 57.13381319),
    (0, 5, 32.72064878),
    (0, 5, 10.42284905),
    (0, 4, 50.03412732),
    (0, 4, 31.36902349),
    (0, 4, 14.26096682),
    (0, 3, 58.56044869),
    (0, 3, 44.13332221),
    (0, 3, 30.85923635),
    (0, 3, 18.63020563),
    (0, 3, 7.34931201),
    (0, 2, 56.92953265),
    (0, 2, 47.29268563),
    (0, 2, 38.3684847),
];

#[test]
fn appendix_c_time_from_perigee_second_run() {
    RUN_2.times_are(20.0, 1.0, &SECOND_RUN);
}

/// S/C IN SHADOW is printed at right ascensions 150 to 230, and not at 140 and 240. The Sun is opposite to the anti-Sun line,
/// printed as 194.58 and −6.23; the shadow's cone and its movement matter less than a degree. One shadow an orbit, around perigee.
#[test]
fn appendix_c_shadow() {
    let (fields, p) = (
        RUN_1.fields([14.58, 6.23]),
        (60_000.0 * RUN_1.period) as u64,
    );
    let shadows = list(&job(fields, p / 2, p / 2 + p, 600_000, 1));
    let [shadow] = shadows[..] else {
        panic!("{shadows:?}")
    };
    let rows = rows_P_and_Q(RUN_1.angles);
    let places = places(fields, &[shadow.first, shadow.last]);
    let [into, out_of] = [0, 1].map(|k| sky(&rows, &places[k])[0]);
    assert!((140.0..150.0).contains(&into), "into it at {into}");
    assert!((230.0..240.0).contains(&out_of), "out of it at {out_of}");
}
