//! What the proved programs answer, of which the independent implementation has to say the same.

use crate::common::driver::built;
use host::program::LISTED;
use host::record::{Interval, Job, INTERVAL};
use host::rotation::{direction, rotation, sum};
use host::scaled::scaled;
use host::sine::Sine;
use host::whole::Whole;

/// A job's intervals.
pub fn list(job: &Job) -> Vec<Interval> {
    let record = job.encode();
    let output = built("lists", &record);
    assert_eq!(
        output,
        host::program(&record),
        "proved and independent, {job:?}"
    );
    let mut records: Vec<Interval> = output
        .chunks(INTERVAL)
        .filter_map(Interval::decode)
        .collect();
    assert_eq!(
        records.pop().map(|closing| closing.flags),
        Some(LISTED),
        "{job:?}"
    );
    records
}

pub type Fields = [f64; 13];

/// Right ascension and declination.
pub type Body = [f64; 2];

pub fn fields(orbit: [f64; 7], body: Body, station: [f64; 4]) -> Fields {
    [&orbit[..], &body, &station].concat().try_into().unwrap()
}

pub fn job(fields: Fields, t0: u64, t1: u64, step: u32, question: u32) -> Job {
    Job {
        job: 1,
        word: 0,
        fields,
        t0,
        t1,
        step,
        question,
    }
}

/// Where the craft is, in metres: X and Y in the orbit's plane, d toward the far body.
#[derive(Debug, Clone, Copy, PartialEq)]
pub struct Place {
    pub X: f64,
    pub Y: f64,
    pub d: f64,
}

impl Place {
    pub fn distance(&self) -> f64 {
        self.X.hypot(self.Y)
    }

    /// The angle from periapsis, 0 to 360 degrees.
    pub fn true_anomaly(&self) -> f64 {
        turned(self.Y.atan2(self.X))
    }
}

/// Radians as degrees from 0 to 360.
pub fn turned(radians: f64) -> f64 {
    radians.to_degrees().rem_euclid(360.0)
}

/// The places at some instants: the program `instants` takes three records and prints a line for each of twelve instants
/// from t0 on, of which the first is asked for here.
pub fn places(fields: Fields, instants: &[u64]) -> Vec<Place> {
    instants
        .chunks(3)
        .flat_map(|three| three_places(fields, three))
        .collect()
}

/// Each of three records has its twelve lines; where there are fewer instants the last is asked again.
fn three_places(fields: Fields, instants: &[u64]) -> Vec<Place> {
    let asked = [0, 1, 2].map(|k| instants[k.min(instants.len() - 1)]);
    let records = asked.map(|t| job(fields, t, t + 1, 1, 1).encode());
    let output = String::from_utf8(built("instants", &records.concat())).unwrap();
    let lines: Vec<&str> = output.lines().collect();
    assert_eq!(lines.len(), 3 * 12, "lines of `instants`");
    let first_of_twelve = lines.iter().step_by(12);
    first_of_twelve
        .zip(instants)
        .map(|(line, &t)| place(fields, t, line))
        .collect()
}

/// The place that a line tells, which is the independent implementation's too.
fn place(fields: Fields, t: u64, line: &str) -> Place {
    let numbers: Vec<i64> = line
        .split(' ')
        .skip(1)
        .map_while(|word| word.parse().ok())
        .collect();
    let [X, Y, d] = independent_place(fields, t);
    assert_eq!(
        numbers,
        [t as i64, X, Y, d],
        "proved and independent, {fields:?}"
    );
    let [X, Y, d] = [X, Y, d].map(|metres| metres as f64);
    Place { X, Y, d }
}

pub fn independent_place(fields: Fields, t: u64) -> [i64; 3] {
    let (sine, whole) = (Sine::table(), Whole::of(&fields));
    let E = direction(sine, whole.ascension, whole.declination);
    let [P, Q, _] = rotation(sine, whole.inclination, whole.node, whole.argument);
    let (X, Y) = host::place::Place::of(&whole).at(t);
    [X, Y, scaled(X, sum(&P, &E)) + scaled(Y, sum(&Q, &E))]
}

/// Inclination, node and argument of periapsis.
pub type Angles = [f64; 3];

/// The far body's direction along the rows P and Q, as d has it. The orbit is round: at the epoch Y is 0, and a quarter of
/// the period later X is.
pub fn toward([i, node, argument]: Angles, body: Body) -> [f64; 2] {
    let orbit = [250_000.0, 0.0, i, node, argument, 4_000.0, 1.0];
    let at = places(fields(orbit, body, [0.0; 4]), &[0, 1_000_000]);
    [at[0].d / at[0].X, at[1].d / at[1].Y]
}

/// Rows P and Q: the directions of the three axes along them.
pub fn rows_P_and_Q(angles: Angles) -> [[f64; 3]; 2] {
    let axes = [[0.0, 0.0], [90.0, 0.0], [0.0, 90.0]].map(|axis| toward(angles, axis));
    [axes.map(|along| along[0]), axes.map(|along| along[1])]
}

/// The craft's right ascension, 0 to 360 degrees, and declination.
pub fn sky([P, Q]: &[[f64; 3]; 2], at: &Place) -> [f64; 2] {
    let [x, y, z] = [0, 1, 2].map(|k| at.X * P[k] + at.Y * Q[k]);
    [turned(y.atan2(x)), (z / at.distance()).asin().to_degrees()]
}
