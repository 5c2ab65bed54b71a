//! Document 01, On both sides: the marked cases.

use host::kepler::Kepler;
use host::sine::Sine;
use host::whole::{angle, eccentricity, metres};

#[test]
fn marked_sine_at_0_is_0() {
    assert_eq!(Sine::table().sin(0), 0);
}

#[test]
fn marked_sine_at_an_eighth_turn() {
    assert_eq!(Sine::table().sin(1 << 29), 759_250_125);
}

#[test]
fn marked_sine_at_a_quarter_turn() {
    assert_eq!(Sine::table().sin(1 << 30), 1 << 30);
}

#[test]
fn marked_sine_at_half_a_turn() {
    assert_eq!(Sine::table().sin(1 << 31), 0);
}

#[test]
fn marked_sine_at_three_quarters() {
    assert_eq!(Sine::table().sin(3 << 30), -(1 << 30));
}

#[test]
fn marked_angles() {
    assert_eq!(angle(1.0), 11_930_465);
    assert_eq!(angle(5.0), 59_652_324);
    assert_eq!(angle(90.0), 1 << 30);
}

#[test]
fn marked_eccentricity() {
    assert_eq!(eccentricity(0.95), 1_020_054_733);
}

#[test]
fn marked_radius() {
    assert_eq!(metres(3393.4), 3_393_400);
}

#[test]
fn marked_kepler() {
    let kepler = Kepler {
        sine: Sine::table(),
        e: eccentricity(0.5),
    };
    assert_eq!(kepler.search(1 << 31), 1 << 31);
    assert_eq!(kepler.search(0), 0);
}
