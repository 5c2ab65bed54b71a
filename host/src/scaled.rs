//! Document 01, opening: the scaled product ∘ and its floors.

/// What stands for one: 2^30.
pub const ONE: i64 = 1 << 30;

/// Document 01, opening: a∘b = floor(a·b / 2^30).
///
/// An arithmetic shift to the right is a floor, below zero too. The product is
/// exact in 64 bits: in a job it stays under 2^63. Sines, cosines, e and q are
/// at most 2^30; a < 2^28 and |cos E − e| < 2^31, so |X| and |Y| are at most
/// 2^29; an entry of P or Q is at most 2^31, so |Ep| and |Eq| < 2^33. The
/// greatest product is then that of X and Ep, under 2^62.
#[inline]
pub fn scaled(a: i64, b: i64) -> i64 {
    (a * b) >> 30
}

/// Document 01, opening: products of three are taken from the left.
#[inline]
pub fn scaled3(a: i64, b: i64, c: i64) -> i64 {
    scaled(scaled(a, b), c)
}

/// floor((t mod p)·2^32 / p), the part of a turn made at instant t: M of
/// document 01, Place in the orbit, and the station's term of document 02,
/// wish 2, with 10·t for t and ten turns for p.
///
/// t mod p is below 2^32, so the shifted number fits in 64 bits, and the
/// quotient is below 2^32. p is not 0: a period is at least 60,000 ms, and ten
/// turns of the station are 861,640,905.
#[inline]
pub fn part_of_turn(t: u64, p: u32) -> u32 {
    (((t % u64::from(p)) << 32) / u64::from(p)) as u32
}
