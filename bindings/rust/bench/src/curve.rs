//! Discounting by fractions of 2^64.

use plain::layout::PRODUCT_GROUPS;
use plain::valuation::YEARS;

use crate::reading::MILLION;
use crate::share::Share;

/// No doubled amount reaches it: a group's outgo is below 1.64 times 10^15, and below 2.7 times
/// 10^15 once it is 49 years back at the least rate.
const MOST_DOUBLED: u64 = 10_000_000_000_000_000;

/// Outgo and premium of one year.
pub type Amounts = [u64; 2];

/// For each year, how an amount goes one year back at the rate of that year. At a rate below zero
/// an amount grows, so twice the amount goes over twice the divisor.
pub struct Curve {
    years: [Step; YEARS],
}

#[derive(Clone, Copy)]
struct Step {
    share: Share,
    doubled_divisor: u64,
}

impl Curve {
    pub fn new(divisors: &[u64; YEARS]) -> Curve {
        Curve {
            years: divisors.map(|divisor| Step {
                share: Share::new(MILLION, 2 * divisor),
                doubled_divisor: 2 * divisor,
            }),
        }
    }

    /// The amounts of all product groups in year k, k years back. They do not wait for each other.
    #[inline(always)]
    pub fn discount_year(
        &self,
        k: usize,
        mut amounts: [Amounts; PRODUCT_GROUPS],
    ) -> [Amounts; PRODUCT_GROUPS] {
        let step = &self.years[k];
        for _ in 0..k {
            amounts = amounts.map(|pair| step.back(pair));
        }
        amounts
    }

    /// The amounts of a product group in all years from one on, each its own number of years back.
    /// No year waits for another.
    pub fn discount_years(&self, from: usize, amounts: &mut [Amounts]) {
        let end = from + amounts.len();
        for done in 0..end.saturating_sub(1) {
            let first = from.max(done + 1);
            let left = amounts[first - from..].iter_mut();
            for (pair, step) in left.zip(&self.years[first..end]) {
                *pair = step.back(*pair);
            }
        }
    }
}

impl Step {
    #[inline(always)]
    fn back(&self, pair: Amounts) -> Amounts {
        pair.map(|amount| {
            self.share
                .of::<MOST_DOUBLED>(2 * amount, self.doubled_divisor)
        })
    }
}
