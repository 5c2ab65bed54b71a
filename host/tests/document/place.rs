//! Document 01, Place in the orbit.

use crate::helpers::*;
use host::kepler::{Kepler, TURN};
use host::place::{q, Place};
use host::rotation::{direction, rotation, sum};
use host::scaled::ONE;
use host::sine::Sine;
use host::whole::{Whole, QUARTER};

#[test]
fn kepler_floors_below_zero() {
    let kepler = Kepler {
        sine: Sine::table(),
        e: 1,
    };
    assert_eq!(kepler.K(1 << 30), 1 << 30); // 1·0.64 down to 0
    assert_eq!(kepler.K(3 << 30), (3 << 30) + 1); // −1·0.64 down to −1
    assert_eq!(kepler.K(TURN - 1), TURN); // −0.000.. down to −1, twice
    assert_eq!((kepler.K(0), kepler.K(TURN)), (0, TURN));
}

#[test]
fn units_of_a_radian() {
    let units = 2f64.powi(32) / (2.0 * std::f64::consts::PI); // 683,565,275.58
    assert_eq!(units.round(), 683_565_276.0);
    let kepler = Kepler {
        sine: Sine::table(),
        e: ONE,
    };
    assert_eq!(kepler.K(1 << 30), (1 << 30) - 683_565_276);
    assert_eq!(kepler.K(3 << 30), (3 << 30) + 683_565_276);
}

#[test]
fn kepler_search_brackets_m() {
    let mut random = Random::of("kepler_search_brackets_m");
    for round in 0..3000 {
        let kepler = Kepler {
            sine: Sine::table(),
            e: if round % 3 == 0 {
                1_020_054_733
            } else {
                random.below(1_020_054_734) as i64
            },
        };
        let M = random.below(1 << 32) as i64;
        let E = kepler.search(M);
        assert!(kepler.K(E) <= M && M < kepler.K(E + 1));
    }
}

#[test]
fn q_is_the_whole_root() {
    assert_eq!(q(0), 1 << 30);
    let mut random = Random::of("q_is_the_whole_root");
    for round in 0..2000i64 {
        let e = match round {
            0..100 => round,
            100 => 1_020_054_733,
            _ => random.below(1_020_054_734) as i64,
        };
        let (root, of) = (i128::from(q(e)), (1i128 << 60) - i128::from(e * e));
        assert!(root * root <= of && of < (root + 1) * (root + 1), "{e}");
    }
    assert_eq!(q(1), (1 << 30) - 1);
}

#[test]
fn places_of_an_even_ellipse() {
    // e = 0.5, so q = floor(2^30·√0.75) = 929,887,696; a = 10,000 km.
    let mut job = job7();
    job.fields[1] = 0.5;
    let place = Place::of(&Whole::of(&job.fields));
    assert_eq!(q(1 << 29), 929_887_696);
    assert_eq!(place.at(0), (5_000_000, 0));
    assert_eq!(place.at(3_600_000), (-15_000_000, 0));
    assert_eq!(place.at(7_200_000), (5_000_000, 0));
    assert_eq!(place.M(1_800_000), 1 << 30);
}

#[test]
fn rotation_of_quarter_turns() {
    let (sine, o) = (Sine::table(), ONE);
    let rows = |i, node, argument| rotation(sine, i, node, argument);
    let quarter = QUARTER;
    assert_eq!(rows(0, 0, 0), [[o, 0, 0], [0, o, 0], [0, 0, o]]);
    assert_eq!(
        rows(quarter, quarter, quarter),
        [[0, 0, o], [0, -o, 0], [o, 0, 0]]
    );
    assert_eq!(rows(quarter, 0, 0), [[o, 0, 0], [0, 0, o], [0, -o, 0]]);
    assert_eq!(rows(0, quarter, 0), [[0, o, 0], [-o, 0, 0], [0, 0, o]]);
    assert_eq!(rows(0, 0, quarter), [[0, o, 0], [-o, 0, 0], [0, 0, o]]);
}

#[test]
fn rotation_negates_after_the_floor() {
    // ω and Ω of one unit: sin = 1, cos = 2^30 − 1; sinω∘cosΩ = floor(1 − 2^-30) = 0,
    // and with i half a turn cos i = −2^30: cosω∘sinΩ∘cos i = 0 as well.
    let sine = Sine::table();
    let [P, Q, W] = rotation(sine, 1 << 31, 1, 1);
    assert_eq!((P[0], P[1], P[2]), (ONE - 2, 0, 0));
    assert_eq!((Q[0], Q[1], Q[2]), (0, -(ONE - 2), 0));
    assert_eq!(W, [0, 0, -ONE]);
    // Three quarters and a unit: sinω = −(2^30 − 1), cosω = 1, Ω a unit:
    // sinω∘sinΩ = floor(−1 + 2^-30) = −1, negated 1; without i's part as cos i = 0.
    let [_, Q, _] = rotation(sine, QUARTER, 1, (3 << 30) + 1);
    assert_eq!(Q[1], 1);
}

#[test]
fn directions_and_sums() {
    let sine = Sine::table();
    assert_eq!(direction(sine, QUARTER, 0), [0, ONE, 0]);
    assert_eq!(direction(sine, 12345, 3 << 30), [0, 0, -ONE]);
    assert_eq!(sum(&[ONE, 2 * ONE, 3 * ONE], &[1, 20, 300]), 941);
    assert_eq!(sum(&[-1, -1, -1], &[1, 1, 1]), -3); // each one floored
}
