//! Report 003, table III: an orbit of Mars.

use crate::printed::*;
use crate::programs::*;
use std::f64::consts::TAU;

/// The interpolation table: TIME in seconds, from the initial point on, at which the true anomaly has grown by 10 degrees k
/// times. The rows that can be read; the first digit at k = 26 is read as S. Radius and gravitational constant are those of
/// appendix B. A hundredth of a second is 0.0005 degrees at periapsis.
#[test]
fn table_iii_interpolation_table() {
    let (apoapsis, periapsis, initial): (f64, f64, f64) = (21367.0, 4378.0, 297.0);
    let axis = (apoapsis + periapsis) / 2.0;
    let e = apoapsis / axis - 1.0;
    let period = TAU * (axis.powi(3) / 42978.0).sqrt();
    let E = 2.0 * (((1.0 - e) / (1.0 + e)).sqrt() * (initial.to_radians() / 2.0).tan()).atan();
    let to_initial = period + (E - e * E.sin()) / TAU * period;
    let orbit = [axis, e, 38.0, 0.0, 0.0, period, 3378.0];
    let printed = [
        (3, 764.31),
        (5, 1169.87),
        (6, 1360.83),
        (7, 1550.41),
        (8, 1743.23),
        (9, 1944.20),
        (11, 2394.04),
        (23, 17874.52),
        (26, 30810.87),
        (30, 40463.12),
        (31, 41562.63),
        (33, 43023.64),
        (35, 43927.98),
    ];
    let instants = printed.map(|(_, time)| ((to_initial + time) * 1000.0).round() as u64);
    let places = places(fields(orbit, [0.0, 0.0], [0.0; 4]), &instants);
    for ((k, time), place) in printed.iter().zip(places) {
        let anomaly = initial + 10.0 * f64::from(*k);
        assert_near(
            anomaly.rem_euclid(360.0),
            place.true_anomaly(),
            0.0005,
            &format!("TR ANOM at {time}"),
        );
    }
}
