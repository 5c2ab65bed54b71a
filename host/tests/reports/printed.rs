//! Printed numbers, which stand for all numbers that are printed so.

pub fn assert_near(printed: f64, found: f64, within: f64, what: &str) {
    assert!(
        (printed - found).abs() <= within,
        "{what}: printed {printed}, found {found}"
    );
}

/// A printed number, good to half a unit of its last place, that belongs to a printed time which is good to half a unit
/// too: `ends` are what is found at the earliest and the latest instant that is printed so.
pub fn assert_between(printed: f64, half: f64, ends: [f64; 2], what: &str) {
    let (low, high) = (ends[0].min(ends[1]) - half, ends[0].max(ends[1]) + half);
    assert!(
        (low..=high).contains(&printed),
        "{what}: printed {printed}, found {ends:?}"
    );
}

/// Minutes from a periapsis passage as milliseconds from the epoch, a period later if need be.
pub fn instant(minutes: f64, period: u64) -> u64 {
    ((minutes * 60_000.0).round() as i64).rem_euclid(period as i64) as u64
}

/// Half of 0.01 minutes, in milliseconds.
pub const HALF: u64 = 300;
