//! Totals in 64 bits, as a good engineer would tune the paper's steps in plain Rust.
//!
//! The book is checked once and its chains are read once. Weights are worked into a chain's rates
//! before its cells are projected, a cell's projection ends at the first year with nothing in
//! force, every product stays within 64 bits, and all divisors are constants but those of the
//! curve. Year by year only the oldest cells are tested for their end: to test each costs more than
//! it saves.

use std::ops::Range;

use plain::check::check;
use plain::layout::{sex_of_chain, CLASSES, PRODUCT_GROUPS};
use plain::settings::{later, Weights, SETTINGS, SHIFTED_YEARS, WEIGHTS};
use plain::valuation::{chains_of, differences, Totals, YEARS};
use plain::Refusal;

use crate::reading::{one_less, read, Book, Record, BILLION, MILLION};

const FIRST_CAPPED_YEAR: usize = 5;

#[derive(Clone, Copy)]
pub struct Tuning {
    pub projections: Projections,
    pub order: Order,
}

/// How many projections serve the eight settings.
#[derive(Clone, Copy, PartialEq)]
pub enum Projections {
    /// one for each setting
    Eight,
    /// settings 5, 6 and 7 take the base setting's, from which only their costs and claims differ
    Five,
}

/// In which order the years of a chain's cells are computed.
#[derive(Clone, Copy)]
pub enum Order {
    /// all years of a cell up to its end, then the next cell; each year waits for the one before
    CellByCell,
    /// one year of all cells, but for the oldest that have ended, then the next year; cells do not
    /// wait for each other
    YearByYear,
}

/// A record under the weights of a setting; what lives on and what stays are in billionths.
#[derive(Clone, Copy)]
struct Row {
    count: u64,
    living_first: u64,
    living_later: u64,
    staying: u64,
    premium: u64,
    claims: u64,
}

#[derive(Clone, Copy)]
struct Sums {
    premium: [u64; YEARS],
    claims: [u64; YEARS],
}

pub fn totals(bytes: &[u8], tuning: Tuning) -> Result<Totals, Refusal> {
    let n = check(bytes)?;
    let book = read(bytes);
    let base = project(&book, &WEIGHTS[0], tuning.order);
    let mut totals = [0; SETTINGS];
    for (setting, weights) in WEIGHTS.iter().enumerate() {
        let shared = setting == 0 || setting >= 5 && tuning.projections == Projections::Five;
        totals[setting] = if shared {
            liability(&book, weights, &base)
        } else {
            liability(&book, weights, &project(&book, weights, tuning.order))
        };
    }
    let differences = differences(&totals);
    Ok(Totals {
        n,
        totals,
        differences,
    })
}

/// Steps 1 and 2 for every product group.
fn project(book: &Book, weights: &Weights, order: Order) -> [Sums; PRODUCT_GROUPS] {
    let mut rows = Vec::with_capacity(CLASSES + YEARS);
    std::array::from_fn(|group| {
        let mut sums = Sums {
            premium: [0; YEARS],
            claims: [0; YEARS],
        };
        for chain in chains_of(group + 1) {
            let percentage = book.percentages[sex_of_chain(chain)];
            weigh(&book.chains[chain], percentage, weights, &mut rows);
            match order {
                Order::CellByCell => add_cell_by_cell(&rows, &mut sums),
                Order::YearByYear => add_year_by_year(&rows, &mut sums),
            }
        }
        sums
    })
}

/// The rows of a chain, and after them that of class 120 again, without contracts of its own:
/// whoever comes to it stays there.
fn weigh(records: &[Record], percentage: u64, weights: &Weights, rows: &mut Vec<Row>) {
    let [first, later] = weights.mortality.map(|weight| percentage * weight);
    rows.clear();
    rows.extend(records.iter().map(|record| Row {
        count: record.count,
        living_first: one_less(record.mortality, first),
        living_later: one_less(record.mortality, later),
        staying: one_less(record.lapse, weights.lapse),
        premium: record.premium,
        claims: record.claims,
    }));
    if let Some(last) = rows.last() {
        let again = Row { count: 0, ..*last };
        rows.resize(records.len() + YEARS - 1, again);
    }
}

fn add_cell_by_cell(rows: &[Row], sums: &mut Sums) {
    for fifty in rows.windows(YEARS) {
        add_cell(fifty, sums);
    }
}

/// Walks the cell of the first of fifty rows, until nothing is in force.
fn add_cell(rows: &[Row], sums: &mut Sums) {
    let (first, later) = rows.split_at(SHIFTED_YEARS);
    let (first_premium, later_premium) = sums.premium.split_at_mut(SHIFTED_YEARS);
    let (first_claims, later_claims) = sums.claims.split_at_mut(SHIFTED_YEARS);
    let mut in_force = rows[0].count * BILLION;
    for ((row, premium), claims) in first.iter().zip(first_premium).zip(first_claims) {
        if in_force == 0 {
            return;
        }
        in_force = add_year(in_force, row, row.living_first, premium, claims);
    }
    for ((row, premium), claims) in later.iter().zip(later_premium).zip(later_claims) {
        if in_force == 0 {
            return;
        }
        in_force = add_year(in_force, row, row.living_later, premium, claims);
    }
}

/// In year k the cell of row i has reached row i + k.
fn add_year_by_year(rows: &[Row], sums: &mut Sums) {
    let mut in_force = [0; CLASSES];
    for (in_force, row) in in_force.iter_mut().zip(rows) {
        *in_force = row.count * BILLION;
    }
    let mut runs = runs_with_contracts(rows);
    for k in 0..YEARS {
        let (premium, claims) = (&mut sums.premium[k], &mut sums.claims[k]);
        for run in &mut runs {
            run.end = end_in_force(&in_force, run.start, run.end);
            let reached = rows.iter().skip(run.start + k);
            for (in_force, row) in in_force[run.clone()].iter_mut().zip(reached) {
                let living = if k < SHIFTED_YEARS {
                    row.living_first
                } else {
                    row.living_later
                };
                *in_force = add_year(*in_force, row, living, premium, claims);
            }
        }
    }
}

/// Rows one after the other whose cells have contracts; all in one run where no cell is without.
fn runs_with_contracts(rows: &[Row]) -> Vec<Range<usize>> {
    let mut runs: Vec<Range<usize>> = Vec::new();
    for own in (0..rows.len()).filter(|own| rows[*own].count != 0) {
        match runs.last_mut() {
            Some(run) if run.end == own => run.end += 1,
            _ => runs.push(own..own + 1),
        }
    }
    runs
}

/// Where a run ends without the cells at its end, the oldest, that have nothing in force.
fn end_in_force(in_force: &[u64], start: usize, mut end: usize) -> usize {
    while start < end && in_force[end - 1] == 0 {
        end -= 1;
    }
    end
}

/// Adds one cell's year to the sums; what is in force a year later.
#[inline]
fn add_year(in_force: u64, row: &Row, living: u64, premium: &mut u64, claims: &mut u64) -> u64 {
    let split = Split::new(in_force);
    *premium += split.times(row.premium);
    *claims += split.times(row.claims);
    Split::new(split.times(living)).times(row.staying)
}

/// A number below 10^15 in whole billions and the rest, so that its products stay within 64 bits.
#[derive(Clone, Copy)]
struct Split {
    whole: u64,
    rest: u64,
}

impl Split {
    #[inline]
    fn new(number: u64) -> Split {
        Split {
            whole: number / BILLION,
            rest: number % BILLION,
        }
    }

    /// Times a number of at most 1.2 times 10^9, over 10^9.
    #[inline]
    fn times(self, billionths: u64) -> u64 {
        self.whole * billionths + self.rest * billionths / BILLION
    }
}

/// Steps 3 to 6 for every product group, added.
fn liability(book: &Book, weights: &Weights, sums: &[Sums; PRODUCT_GROUPS]) -> i64 {
    let mut total = 0;
    for (sums, cost_rate) in sums.iter().zip(book.cost_rates) {
        for k in 0..YEARS {
            let due = outgo_and_premium(sums.premium[k], sums.claims[k], cost_rate, weights, k);
            let [outgo, premium] = discounted(due, book.divisors[k], k);
            total += outgo as i64 - premium as i64;
        }
    }
    total
}

/// Steps 3 and 4: the outgo of a year, and the premium that counts.
#[inline]
pub fn outgo_and_premium(
    premium: u64,
    claims: u64,
    cost_rate: u64,
    weights: &Weights,
    k: usize,
) -> [u64; 2] {
    let later = later(k);
    let cost = Split::new(premium).times(cost_rate * weights.costs[later]);
    let outgo = claims * weights.claims[later] / 1_000 + cost;
    let counted = if k < FIRST_CAPPED_YEAR {
        premium
    } else {
        premium.min(10 * outgo / 9)
    };
    [outgo, counted]
}

/// Step 5 for both amounts of a year at once, since their divisions do not wait for each other.
fn discounted(mut amounts: [u64; 2], divisor: u64, k: usize) -> [u64; 2] {
    for _ in 0..k {
        amounts = amounts.map(|amount| step_back(amount, divisor));
    }
    amounts
}

/// The split is for amounts of 18 times 10^12 and above.
#[inline]
fn step_back(amount: u64, divisor: u64) -> u64 {
    match amount.checked_mul(MILLION) {
        Some(product) => product / divisor,
        None => amount / divisor * MILLION + amount % divisor * MILLION / divisor,
    }
}
