//! A share without a division: x times a weight over a divisor, rounded down, by the upper half of
//! a product.

use plain::layout::MOST_COUNT;

use crate::reading::BILLION;

/// What the greatest count has in force, in billionths of a contract: no cell has more.
const MOST_IN_FORCE: u64 = MOST_COUNT as u64 * BILLION;

/// A weight over its divisor as a fraction of 2^64, rounded down and at most 2^64 - 1.
#[derive(Clone, Copy)]
pub struct Share {
    fraction: u64,
    weight: u64,
}

impl Share {
    /// Of a weight up to the divisor, which is below 2^32 and no power of two: 2^64 is split by the
    /// divisor, so that a constant one leaves no division of 128 bits.
    #[inline(always)]
    pub fn new(weight: u64, divisor: u64) -> Share {
        let whole = ((1 << 64) / divisor as u128) as u64;
        let rest = ((1 << 64) % divisor as u128) as u64;
        Share {
            fraction: (weight * whole).saturating_add(weight * rest / divisor),
            weight,
        }
    }

    /// Of x up to MOST. The fraction is short by at most one part in 2^64, so the product by at
    /// most x: its upper half is the quotient unless the lower half is within x of 2^64. MOST in
    /// place of x makes that one comparison; where it is a power of two, the compiler puts a shift
    /// before it.
    #[inline(always)]
    pub fn of<const MOST: u64>(&self, x: u64, divisor: u64) -> u64 {
        let product = x as u128 * self.fraction as u128;
        let quotient = (product >> 64) as u64;
        if product as u64 >= MOST.wrapping_neg() {
            return corrected(x, self.weight, quotient, divisor);
        }
        quotient
    }

    /// Of so many times the divisor: a product, with nothing to round.
    #[inline(always)]
    pub fn of_whole(&self, times: u64) -> u64 {
        times * self.weight
    }

    /// Of what is in force; the divisor is a billion.
    #[inline(always)]
    pub fn of_in_force(&self, in_force: u64) -> u64 {
        self.of::<MOST_IN_FORCE>(in_force, BILLION)
    }
}

/// The quotient, given it or one less: what it leaves is below twice the divisor, so 64 bits tell
/// it though the products wrap. Seldom needed, and kept out of the loops.
#[cold]
#[inline(never)]
fn corrected(x: u64, weight: u64, quotient: u64, divisor: u64) -> u64 {
    let left = x
        .wrapping_mul(weight)
        .wrapping_sub(quotient.wrapping_mul(divisor));
    quotient + (left >= divisor) as u64
}
