//! The whole square root of any n, q² ≤ n < (q+1)² (document 01, Place in the orbit): the proved one, and by halving.
#![cfg(whole_root)]

mod common;

use common::random::Random;
use common::whole_root::{of_a_job, whole_root};

/// Where a root begins and ends, for q of one digit, of two and of ones alone; numbers of each length; and what jobs ask.
fn asked() -> Vec<u64> {
    let random = &mut Random::of("roots");
    let mut asked = vec![0, u64::MAX];
    for k in 0..32 {
        for q in [1_u64 << k, (1 << k) + 1, (2 << k) - 1] {
            asked.extend([q * q - 1, q * q, q * q + 2 * q]);
        }
    }
    for length in 1..=64 {
        asked.extend((0..1_000).map(|_| random.bits() >> (64 - length)));
    }
    asked.extend((0..10_000).map(|_| of_a_job(random)));
    asked
}

fn finds_each(root: fn(u64) -> u64) {
    for n in asked() {
        let q = u128::from(root(n));
        let wide = u128::from(n);
        assert!(q * q <= wide && wide < (q + 1) * (q + 1), "{q} of {n}");
    }
}

#[test]
fn proved() {
    finds_each(whole_root);
}

#[test]
fn by_halving() {
    finds_each(host::root::by_halving);
}
