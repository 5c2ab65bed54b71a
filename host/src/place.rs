//! Document 01, Place in the orbit: X and Y at an instant.

use crate::kepler::Kepler;
use crate::scaled::{part_of_turn, scaled};
use crate::sine::Sine;
use crate::whole::Whole;

/// q, the whole square root of 2^60 − e²: q² ≤ it < (q+1)². For e from 0 to 2^30.
pub fn q(e: i64) -> i64 {
    ((1u64 << 60) - (e * e) as u64).isqrt() as i64
}

/// What is fixed during a job for the place in its orbit.
#[derive(Clone, Copy)]
pub struct Place {
    kepler: Kepler,
    p: u32,
    a: i64,
    /// a∘q
    aq: i64,
}

impl Place {
    pub fn of(whole: &Whole) -> Place {
        Place {
            kepler: Kepler {
                sine: Sine::table(),
                e: whole.e,
            },
            p: whole.p,
            a: whole.a,
            aq: scaled(whole.a, q(whole.e)),
        }
    }

    /// M = floor((t mod p)·2^32/p).
    #[inline]
    pub fn M(&self, t: u64) -> i64 {
        i64::from(part_of_turn(t, self.p))
    }

    /// X = a∘(cos E − e), Y = (a∘q)∘sin E, in metres.
    #[inline]
    pub fn at(&self, t: u64) -> (i64, i64) {
        let E = self.kepler.search(self.M(t));
        let (sine, e) = (self.kepler.sine, self.kepler.e);
        let X = scaled(self.a, sine.cos(E as u32) - e);
        let Y = scaled(self.aq, sine.sin(E as u32));
        (X, Y)
    }
}
