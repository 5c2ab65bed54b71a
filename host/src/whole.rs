//! Document 01, From floats to whole numbers.

use crate::scaled::ONE;

/// Document 01: a quarter turn is 1,073,741,824 units; a turn is 2^32 of them.
pub const QUARTER: u32 = 1 << 30;

/// |x| = m / 2^k, read off the bits of a finite x.
fn bits_of(x: f64) -> (u64, i32) {
    let bits = x.to_bits();
    let fraction = bits & ((1 << 52) - 1);
    let exponent = ((bits >> 52) & 0x7ff) as i32;
    if exponent == 0 {
        (fraction, 1074) // zero and the subnormal numbers: no hidden bit
    } else {
        (fraction | 1 << 52, 1075 - exponent)
    }
}

/// Document 01: nearest means floor(exact value + 1/2); here the exact value is
/// |x|·over/under, with over ≤ 2^32 and under ≤ 360.
///
/// Meant for |x| < 2^53, so that k is not below 0; every accepted field is at
/// most 2,000,000. A greater x is taken as if its k were 0.
pub fn nearest(x: f64, over: u64, under: u64) -> u64 {
    let (m, k) = bits_of(x);
    if k > 100 {
        // |x|·over < 2^53·2^32 / 2^101 is far below 1/2. This keeps the shift
        // below within 128 bits: 720·2^100 < 2^110.
        return 0;
    }
    let one = u128::from(under) << k.max(0);
    let value = u128::from(m) * u128::from(over);
    // floor(value/one + 1/2) = floor((2·value + one) / (2·one))
    ((2 * value + one) / (2 * one)) as u64
}

/// Lengths: kilometres to the nearest metre.
pub fn metres(km: f64) -> i64 {
    nearest(km, 1000, 1) as i64
}

/// The period: seconds to the nearest millisecond, at most 2,000,000,000.
pub fn milliseconds(s: f64) -> u32 {
    nearest(s, 1000, 1) as u32
}

/// The eccentricity: nearest of e·2^30.
pub fn eccentricity(e: f64) -> i64 {
    nearest(e, ONE as u64, 1) as i64
}

/// Angles: nearest of x·2^32/360, modulo 2^32. A negative angle is its
/// magnitude's units, negated modulo 2^32.
pub fn angle(degrees: f64) -> u32 {
    let units = nearest(degrees, 1 << 32, 360) as u32; // the cast is modulo 2^32
    if degrees < 0.0 {
        units.wrapping_neg()
    } else {
        units
    }
}

/// The thirteen fields as whole numbers, in the order of document 01's table.
#[derive(Debug, Clone, Copy, PartialEq, Eq)]
pub struct Whole {
    pub a: i64,
    pub e: i64,
    pub inclination: u32,
    pub node: u32,
    pub argument: u32,
    pub p: u32,
    pub R: i64,
    pub ascension: u32,
    pub declination: u32,
    pub latitude: u32,
    pub longitude: u32,
    pub greenwich: u32,
    pub elevation: u32,
}

impl Whole {
    /// The whole numbers of accepted fields.
    pub fn of(fields: &[f64; 13]) -> Whole {
        Whole {
            a: metres(fields[0]),
            e: eccentricity(fields[1]),
            inclination: angle(fields[2]),
            node: angle(fields[3]),
            argument: angle(fields[4]),
            p: milliseconds(fields[5]),
            R: metres(fields[6]),
            ascension: angle(fields[7]),
            declination: angle(fields[8]),
            latitude: angle(fields[9]),
            longitude: angle(fields[10]),
            greenwich: angle(fields[11]),
            elevation: angle(fields[12]),
        }
    }
}
