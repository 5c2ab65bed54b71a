//! Document 02, wish 4: the whole square root by digits, which is the proved one, beside the halving that it was before.

use super::cases::Case;
use super::common::door::ANSWER;
use super::common::random::Random;
use super::common::whole_root::{of_a_job, whole_root};
use super::measured::Sides;

/// A record is a number in 8 bytes, and its root is written.
pub fn of_jobs() -> Case {
    let random = &mut Random::of("roots");
    let record = |_| of_a_job(random).to_le_bytes().to_vec();
    Case {
        name: "whole roots, beside halving",
        sides: Sides {
            proved: |n, _, root| rooted(n, root, whole_root),
            independent: |n, _, root| rooted(n, root, host::root::by_halving),
        },
        records: (0..1_000).map(record).collect(),
        list: vec![],
        room: 8,
    }
}

fn rooted(n: &[u8], root: &mut [u8], of: impl Fn(u64) -> u64) -> [u8; ANSWER] {
    let n = u64::from_le_bytes(n.try_into().unwrap());
    root.copy_from_slice(&of(n).to_le_bytes());
    [0; ANSWER]
}
