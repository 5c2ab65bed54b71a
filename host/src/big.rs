//! Unsigned whole numbers of any size, only as much as the sine table needs:
//! product, sum, difference and order.

use std::cmp::Ordering;

/// Limbs of 64 bits, the least first, no zero limb at the top.
#[derive(Debug, Clone, PartialEq, Eq)]
pub struct Big(Vec<u64>);

impl From<u128> for Big {
    fn from(n: u128) -> Big {
        Big::trimmed(vec![n as u64, (n >> 64) as u64])
    }
}

impl Big {
    /// The same number without zero limbs at the top, so that longer is greater.
    fn trimmed(mut limbs: Vec<u64>) -> Big {
        while limbs.last() == Some(&0) {
            limbs.pop();
        }
        Big(limbs)
    }

    /// Limb k, zero above the top.
    fn limb(&self, k: usize) -> u64 {
        self.0.get(k).copied().unwrap_or(0)
    }

    /// The product, as learnt at school.
    pub fn times(&self, other: &Big) -> Big {
        let mut limbs = vec![0u64; self.0.len() + other.0.len()];
        for (i, &a) in self.0.iter().enumerate() {
            let mut carry = 0u64;
            for (j, &b) in other.0.iter().enumerate() {
                // (2^64 − 1)² + 2·(2^64 − 1) = 2^128 − 1: never too great.
                let sum =
                    u128::from(a) * u128::from(b) + u128::from(limbs[i + j]) + u128::from(carry);
                limbs[i + j] = sum as u64;
                carry = (sum >> 64) as u64;
            }
            limbs[i + other.0.len()] = carry;
        }
        Big::trimmed(limbs)
    }

    /// The sum.
    pub fn plus(&self, other: &Big) -> Big {
        let length = self.0.len().max(other.0.len());
        let mut limbs = Vec::with_capacity(length + 1);
        let mut carry = 0u128;
        for k in 0..length {
            let sum = u128::from(self.limb(k)) + u128::from(other.limb(k)) + carry;
            limbs.push(sum as u64);
            carry = sum >> 64;
        }
        limbs.push(carry as u64);
        Big::trimmed(limbs)
    }

    /// The difference, or nothing if it would be below zero.
    pub fn minus(&self, other: &Big) -> Option<Big> {
        if *self < *other {
            return None;
        }
        let mut limbs = Vec::with_capacity(self.0.len());
        let mut borrow = false;
        for k in 0..self.0.len() {
            let (once, under) = self.limb(k).overflowing_sub(other.limb(k));
            let (twice, again) = once.overflowing_sub(u64::from(borrow));
            limbs.push(twice);
            borrow = under || again;
        }
        Some(Big::trimmed(limbs))
    }
}

impl Ord for Big {
    fn cmp(&self, other: &Big) -> Ordering {
        let by_length = self.0.len().cmp(&other.0.len());
        by_length.then_with(|| self.0.iter().rev().cmp(other.0.iter().rev()))
    }
}

impl PartialOrd for Big {
    fn partial_cmp(&self, other: &Big) -> Option<Ordering> {
        Some(self.cmp(other))
    }
}
