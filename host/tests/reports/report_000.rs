//! Report 000, appendix C, "Sample Output": orbits of Venus.

use crate::printed::*;
use crate::programs::*;
use host::rotation::rotation;
use host::scaled::ONE;
use host::sine::Sine;
use host::whole::Whole;
use std::f64::consts::TAU;

/// The period, ms: 6.54043860 h.
const VENUS_PERIOD: u64 = 23_545_579;
const VENUS_RADIUS: f64 = 6085.0;

const BETA_50: Angles = [50.0, 27.6239274, 24.4588570];
const BETA_60: Angles = [60.0, 50.7500715, 11.0217390];

/// RAETH is printed as −114.425580.
const EARTH: Body = [245.574420, -0.326443962];
const SUN: Body = [138.895138, 4.11592452];
/// Printed as a unit vector only.
const CANOPUS: Body = [75.44876291, -71.13079936];

fn around_venus([i, node, argument]: Angles, [ascension, declination]: Body) -> Fields {
    let (axis, eccentricity, period) = (16585.0, 0.572806753, 23545.578967);
    let station = [0.0; 4];
    let orbit = [axis, eccentricity, i, node, argument, period, VENUS_RADIUS];
    fields(orbit, [ascension, declination], station)
}

/// PERIOD; the gravitational constant is that of the main program in appendix B.
#[test]
fn appendix_c_period() {
    let period = TAU * (16585.0f64.powi(3) / 324853.4).sqrt();
    assert_near(6.54043860, period / 3600.0, 5e-9, "PERIOD");
    assert_near(around_venus(BETA_50, EARTH)[5], period, 5e-7, "field 6");
    assert_eq!(
        u64::from(Whole::of(&around_venus(BETA_50, EARTH)).p),
        VENUS_PERIOD
    );
}

/// ENTER EARTH OCCULTATION, EXIT EARTH OCCULTATION and EARTH OCCULTATION TIME, minutes from periapsis. Two periods from the
/// epoch on begin in one shadow, have a whole one, and end in a third.
fn earth_is_hidden(angles: Angles, enter: f64, exit: f64, time: f64) {
    let t1 = 2 * VENUS_PERIOD;
    let shadows = list(&job(around_venus(angles, EARTH), 0, t1, 600_000, 1));
    let [out_of, whole, into] = shadows[..] else {
        panic!("{shadows:?}")
    };
    assert_eq!(
        [out_of.flags, whole.flags, into.flags],
        [1 + 16, 4 + 16, 4 + 2]
    );
    assert_eq!([out_of.first, into.last], [0, t1]);
    assert_eq!(
        [whole.last - out_of.last, into.first - whole.first],
        [VENUS_PERIOD; 2]
    );
    let ms = |t: u64, passage: u64| t as f64 - (passage * VENUS_PERIOD) as f64;
    let half = HALF as f64;
    assert_near(
        exit * 60_000.0,
        ms(out_of.last, 0),
        half,
        "exit from the first",
    );
    assert_near(
        enter * 60_000.0,
        ms(whole.first, 1),
        half,
        "enter the second",
    );
    assert_near(
        exit * 60_000.0,
        ms(whole.last, 1),
        half,
        "exit from the second",
    );
    assert_near(
        time * 60_000.0,
        (whole.last - whole.first) as f64,
        half,
        "the second",
    );
    assert_near(enter * 60_000.0, ms(into.first, 2), half, "enter the third");
}

#[test]
fn appendix_c_earth_occultation_beta_50() {
    earth_is_hidden(BETA_50, -10.97, 11.99, 22.97);
}

#[test]
fn appendix_c_earth_occultation_beta_60() {
    earth_is_hidden(BETA_60, -13.42, 11.96, 25.38);
}

/// The occultation times of Sun and Canopus are printed as 0.00: never hidden. That is seen at an instant each 6 s of a
/// period; and where the craft is behind the planet, it is farther from the shadow than it can go in that time.
#[test]
fn appendix_c_sun_and_canopus_are_never_hidden() {
    for (angles, body) in [
        (BETA_50, SUN),
        (BETA_50, CANOPUS),
        (BETA_60, SUN),
        (BETA_60, CANOPUS),
    ] {
        let (fields, step) = (around_venus(angles, body), 6_000);
        assert_eq!(list(&job(fields, 0, VENUS_PERIOD, step, 1)), []);
        let farthest = 8.49202890 * f64::from(step); // VPE, the speed at periapsis, km/s
        for t in (0..VENUS_PERIOD).step_by(step as usize) {
            let [X, Y, d] = independent_place(fields, t).map(|metres| metres as f64);
            let beside = (X * X + Y * Y - d * d).sqrt() - 1000.0 * VENUS_RADIUS;
            assert!(
                d > 0.0 || beside > farthest,
                "{fields:?} at {t}: {beside} m"
            );
        }
    }
}

/// What 4,097 entries of sine are good for. None of these is off by 4·10^-8.
const TABLE: f64 = 5e-8;

/// PX to WZ. No program prints the rotation, so P and Q are seen through d; and the independent implementation's rows are
/// looked at themselves, W too, which no answer uses.
fn rotation_is(angles: Angles, printed: [[f64; 3]; 3]) {
    let [i, node, argument] = angles.map(host::whole::angle);
    let rows = rotation(Sine::table(), i, node, argument);
    let rows = rows.map(|row| row.map(|entry| entry as f64 / ONE as f64));
    let seen = rows_P_and_Q(angles);
    for (k, (row, printed)) in rows
        .iter()
        .chain(&seen)
        .zip(printed.iter().cycle())
        .enumerate()
    {
        for (found, printed) in row.iter().zip(printed) {
            assert_near(
                *printed,
                *found,
                TABLE,
                ["PX..", "QX..", "WX..", "P of d", "Q of d"][k],
            );
        }
    }
}

/// QX is read as −6.28135792E-01 in the text; P and Q would not be at right angles.
#[test]
fn appendix_c_rotation_beta_50() {
    let P = [6.83098535E-01, 6.57858492E-01, 3.17172819E-01];
    let Q = [-6.38135792E-01, 3.26431033E-01, 6.97298711E-01];
    let W = [3.55188827E-01, -6.78723055E-01, 6.42787610E-01];
    rotation_is(BETA_50, [P, Q, W]);
}

#[test]
fn appendix_c_rotation_beta_60() {
    let P = [5.47009130E-01, 8.20590189E-01, 1.65567973E-01];
    let Q = [-5.01016087E-01, 1.62467333E-01, 8.50051320E-01];
    let W = [6.70644386E-01, -5.47938051E-01, 5.00000000E-01];
    rotation_is(BETA_60, [P, Q, W]);
}

/// XSUN to ZCANPS, seen through d: in the equator's plane P and Q are the first two axes, and square to it Q is the third.
/// ZEARTH is read as −5.6974911E-02 in the table of unit vectors, and rightly in the two others.
#[test]
fn appendix_c_unit_vectors() {
    let sun = [-7.51564211E-01, 6.55743573E-01, 7.17746656E-02];
    let earth = [-4.13504260E-01, -9.10484358E-01, -5.69749114E-03];
    let canopus = [8.12550588E-02, 3.13034915E-01, -9.46259344E-01];
    for (body, [x, y, z]) in [(SUN, sun), (EARTH, earth), (CANOPUS, canopus)] {
        let ([Ex, Ey], [_, Ez]) = (toward([0.0; 3], body), toward([90.0, 0.0, 0.0], body));
        assert_near(x, Ex, TABLE, "x");
        assert_near(y, Ey, TABLE, "y");
        assert_near(z, Ez, TABLE, "z");
    }
}

/// A line of the tables below the orbits: TIME, T.A., ALT, DEC and RA of the craft; and before them, where it is printed, the
/// SUN ANGLE between the directions to Sun and craft.
type Line = (Option<f64>, [f64; 5]);

/// T.A., ALT, DEC, RA and SUN ANGLE of a place.
fn line(rows: &[[f64; 3]; 2], at: &Place) -> [f64; 5] {
    let [ascension, declination] = sky(rows, at);
    let altitude = at.distance() / 1000.0 - VENUS_RADIUS;
    let sun_angle = (at.d / at.distance()).acos().to_degrees();
    [
        at.true_anomaly(),
        altitude,
        declination,
        ascension,
        sun_angle,
    ]
}

fn lines_are(angles: Angles, lines: &[Line]) {
    let times = lines
        .iter()
        .map(|(_, [minutes, ..])| instant(*minutes, VENUS_PERIOD));
    let ends: Vec<u64> = times.flat_map(|t| [t - HALF, t + HALF]).collect();
    let places = places(around_venus(angles, SUN), &ends);
    let rows = rows_P_and_Q(angles);
    for (printed, ends) in lines.iter().zip(places.chunks(2)) {
        line_is(printed, [line(&rows, &ends[0]), line(&rows, &ends[1])]);
    }
}

fn line_is((sun_angle, printed): &Line, [early, late]: [[f64; 5]; 2]) {
    let [minutes, anomaly, altitude, declination, ascension] = *printed;
    let [anomaly, ascension] = [anomaly, ascension].map(|degrees| degrees.rem_euclid(360.0));
    let printed = [anomaly, altitude, declination, ascension];
    for (k, what) in ["T.A.", "ALT", "DEC", "RA"].iter().enumerate() {
        let what = format!("{what} at {minutes}");
        assert_between(printed[k], 0.005, [early[k], late[k]], &what);
    }
    if let Some(sun_angle) = sun_angle {
        let what = format!("SUN ANGLE at {minutes}");
        assert_between(*sun_angle, 0.0, [early[4], late[4]], &what);
    }
}

#[test]
fn appendix_c_lines_beta_50() {
    lines_are(
        BETA_50,
        &[
            (Some(60.0), [12.30, 46.64, 1912.76, 46.45, 89.58]),
            (Some(60.0), [91.32, 142.47, 14334.23, 9.97, -160.86]),
            (Some(70.0), [8.03, 31.84, 1410.80, 39.59, 71.57]),
            (Some(70.0), [126.21, 157.27, 17539.44, -1.32, -151.27]),
            (Some(80.0), [4.42, 18.01, 1128.78, 31.15, 58.10]),
            (Some(80.0), [167.23, 171.10, 19585.12, -11.85, -142.23]),
            (Some(90.0), [1.11, 4.55, 1008.16, 21.81, 47.24]),
            (Some(90.0), [-181.27, -175.45, 19890.03, -21.81, -132.76]),
            (None, [-10.97, 317.75, 1740.23, -13.53, 15.97]),
            (None, [11.99, 45.63, 1871.47, 46.08, 88.23]),
        ],
    );
}

/// The second true anomaly at 90 degrees is read as 155.68; it is half a turn from the first, −14.32.
#[test]
fn appendix_c_lines_beta_60() {
    lines_are(
        BETA_60,
        &[
            (Some(60.0), [39.46, 102.76, 6671.89, 52.42, -177.86]),
            (Some(60.0), [12.92, 48.61, 1997.22, 48.35, 91.22]),
            (Some(70.0), [66.78, 128.16, 11162.31, 34.48, -152.61]),
            (Some(70.0), [5.75, 23.21, 1215.08, 29.15, 69.54]),
            (Some(80.0), [102.41, 147.67, 15510.85, 18.34, -140.29]),
            (Some(80.0), [0.90, 3.70, 1005.37, 12.71, 58.23]),
            (Some(90.0), [150.38, 165.68, 18957.04, 2.85, -130.90]),
            (Some(90.0), [-3.50, -14.32, 1081.06, -2.85, 49.10]),
            (None, [-13.42, 309.81, 2068.20, -33.16, 28.59]),
            (None, [11.96, 45.52, 1867.02, 46.26, 87.86]),
        ],
    );
}
