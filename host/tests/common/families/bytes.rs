//! Input that nobody meant.

use super::super::jobs::{self, LONGEST_LIST};
use super::super::random::Random;
use super::Pieces;
use host::record::ORBIT;

pub fn random_bytes(random: &mut Random) -> Pieces {
    (0..1_000).map(|_| random.bytes(ORBIT)).collect()
}

/// Random bytes in place of some fields of a good record, with nothing else wrong.
pub fn random_fields(random: &mut Random) -> Pieces {
    let record = |_| {
        let mut record = jobs::any(random).encode().to_vec();
        for _ in 0..random.between(1, 3) {
            let at = 8 * random.between(1, 16) as usize;
            record[at..at + 8].copy_from_slice(&random.bits().to_le_bytes());
        }
        record
    };
    (0..1_000).map(record).collect()
}

fn flip(record: &mut [u8], bit: usize) {
    record[bit / 8] ^= 1 << (bit % 8);
}

/// One to three bits of a good record are wrong.
pub fn bit_flips(random: &mut Random) -> Pieces {
    let flipped = |_| {
        let mut record = jobs::any(random).encode().to_vec();
        for _ in 0..random.between(1, 3) {
            flip(
                &mut record,
                random.between(0, 8 * ORBIT as u64 - 1) as usize,
            );
        }
        record
    };
    (0..1_000).map(flipped).collect()
}

/// Each bit of one record by itself; the record has a list of several intervals.
pub fn every_bit(random: &mut Random) -> Pieces {
    let several = |record: &[u8; ORBIT]| host::list(record, &mut [0; LONGEST_LIST]).intervals > 3;
    let mut records = std::iter::repeat_with(|| jobs::any(random).encode());
    let good = records.find(several).unwrap();
    let flipped = |bit| {
        let mut record = good.to_vec();
        flip(&mut record, bit);
        record
    };
    (0..8 * ORBIT).map(flipped).collect()
}

/// Good records, and a piece of one behind them.
pub fn short_tail(random: &mut Random) -> Pieces {
    let mut pieces: Pieces = (0..20)
        .map(|_| jobs::any(random).encode().to_vec())
        .collect();
    pieces[19].truncate(random.between(1, ORBIT as u64 - 1) as usize);
    pieces
}
