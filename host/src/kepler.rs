//! Document 01, Place in the orbit: K and the search for E.

use crate::scaled::scaled;
use crate::sine::Sine;

/// A turn in angle units.
pub const TURN: i64 = 1 << 32;
/// The nearest whole number to 2^32/2π.
pub const UNITS_PER_RADIAN: i64 = 683_565_276;

/// Kepler's equation for one eccentricity.
#[derive(Clone, Copy)]
pub struct Kepler {
    pub sine: &'static Sine,
    pub e: i64,
}

impl Kepler {
    /// K(E) = E − floor((e∘sin E)·683,565,276 / 2^30), for E from 0 to 2^32.
    /// The cast is modulo 2^32, so at E = 2^32 the sine is that of 0.
    #[inline]
    pub fn K(&self, E: i64) -> i64 {
        E - scaled(scaled(self.e, self.sine.sin(E as u32)), UNITS_PER_RADIAN)
    }

    /// E, the search's low when low and high are neighbours:
    /// K(E) ≤ M < K(E+1).
    #[inline]
    pub fn search(&self, M: i64) -> i64 {
        let (mut low, mut high) = (0, TURN);
        while high - low > 1 {
            let middle = (low + high) / 2;
            if self.K(middle) <= M {
                low = middle;
            } else {
                high = middle;
            }
        }
        low
    }
}
