//! The proved whole square root as Rust calls it, and what it is asked.

use super::random::Random;

/// The nearest whole number to 0.95·2^30, the greatest e of a job.
const GREATEST_E: u64 = 1_020_054_733;

extern "C" {
    fn quechotzal_whole_root(n: u64) -> u64;
}

/// The whole square root by the proved code.
pub fn whole_root(n: u64) -> u64 {
    // A number goes in and a number comes out.
    unsafe { quechotzal_whole_root(n) }
}

/// What a job asks the root of, 2^60 − e², for any e.
pub fn of_a_job(random: &mut Random) -> u64 {
    let e = random.between(0, GREATEST_E);
    (1 << 60) - e * e
}
