//! The whole square root by halving, as the proved one was searched before
//! document 02's wish 4. No rule here uses it, since q is by `isqrt`: it is kept
//! for the benchmark, which sets the root by digits beside it. So that both do
//! what they did, it is the crate's own former loop, the one thing in this
//! library that was not written from the documents alone.

/// q with q² ≤ n < (q+1)²: it lies from `low` up to, not with, `high`.
pub fn by_halving(n: u64) -> u64 {
    let mut low: u64 = 0;
    let mut high: u64 = 1 << 32;
    while low + 1 < high {
        let middle = (low + high) / 2;
        if middle * middle <= n {
            low = middle;
        } else {
            high = middle;
        }
    }
    low
}
