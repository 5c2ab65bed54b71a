//! Document 01, Sine: the table by its rule, and the reading between entries. The table's size is
//! that of document 02, wish 5.

use crate::big::Big;
use crate::whole::QUARTER;
use std::sync::OnceLock;

/// The last entry's number; the table has one entry more.
pub const LAST: usize = 4096;

/// A segment, from one entry to the next, has 2^18 units.
const SEGMENT_BITS: u32 = 18;

/// π read as 3.14159265358979323846, times 10^20.
const PI: u128 = 314_159_265_358_979_323_846;
const PI_SCALE: u128 = 100_000_000_000_000_000_000;

/// The quarter-wave table, in units of 2^-30.
pub struct Sine([i64; LAST + 1]);

/// Document 01, Sine: entry k is the nearest whole number to 2^30 times the
/// first twelve terms of the series at x = k·π/8192.
///
/// With x = A/B the sum is x·t1, where tn = 1 − x²/(2n·(2n+1))·t(n+1) and t12 = 1:
/// eleven brackets and the leading x make twelve terms, to the 23rd power. The
/// fraction is exact: whole numbers of any size, nothing rounded before the end.
pub fn entry(k: usize) -> i64 {
    let A = Big::from(k as u128 * PI);
    let B = Big::from(8192 * PI_SCALE);
    let (A2, B2) = (A.times(&A), B.times(&B));
    let (mut over, mut under) = (Big::from(1), Big::from(1));
    for n in (1..=11u128).rev() {
        under = under.times(&B2).times(&Big::from(2 * n * (2 * n + 1)));
        over = under
            .minus(&A2.times(&over))
            .expect("x² < 2.47, so every bracket lies between 0.5 and 1");
    }
    nearest_of_fraction(&A.times(&over), &B.times(&under))
}

/// floor(2^30·over/under + 1/2), for a fraction below 2: the greatest w with
/// w·2·under ≤ 2^31·over + under.
fn nearest_of_fraction(over: &Big, under: &Big) -> i64 {
    let total = over.times(&Big::from(1 << 31)).plus(under);
    let part = under.times(&Big::from(2));
    let (mut low, mut high) = (0u128, 1 << 32);
    while high - low > 1 {
        let middle = (low + high) / 2;
        if part.times(&Big::from(middle)) <= total {
            low = middle;
        } else {
            high = middle;
        }
    }
    low as i64
}

impl Sine {
    /// The one table of the process, worked out when first asked for.
    pub fn table() -> &'static Sine {
        static TABLE: OnceLock<Sine> = OnceLock::new();
        TABLE.get_or_init(|| Sine(std::array::from_fn(entry)))
    }

    /// All entries, 0 to 4096.
    pub fn entries(&self) -> &[i64; LAST + 1] {
        &self.0
    }

    /// Document 01, Sine: the sine of an angle in units of 2^-32 of a turn.
    #[inline]
    pub fn sin(&self, theta: u32) -> i64 {
        let j = theta / QUARTER;
        let f = theta % QUARTER;
        let g = match j {
            0 | 2 => f,
            _ => QUARTER - f,
        };
        let size = self.quarter(g);
        if j >= 2 {
            -size
        } else {
            size
        }
    }

    /// Document 01, Sine: cosine of θ is sine of θ + 2^30, modulo 2^32.
    #[inline]
    pub fn cos(&self, theta: u32) -> i64 {
        self.sin(theta.wrapping_add(QUARTER))
    }

    /// The reading at g, 0 to 2^30, within the first quarter.
    #[inline]
    fn quarter(&self, g: u32) -> i64 {
        let k = (g >> SEGMENT_BITS) as usize;
        if k >= LAST {
            return self.0[LAST];
        }
        let r = i64::from(g & ((1 << SEGMENT_BITS) - 1));
        self.0[k] + (((self.0[k + 1] - self.0[k]) * r) >> SEGMENT_BITS)
    }
}
