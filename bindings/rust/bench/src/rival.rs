//! Totals in safe Rust with the ideas of the archive that help it: what a good engineer makes of
//! them.
//!
//! Shares and discounting go by fractions of 2^64 (`share.rs`, `curve.rs`), so no loop divides but
//! by constants. Rows are made once for all settings. Five projections serve the eight settings;
//! those of a cell go side by side and end early. Year 0, with a whole number of contracts in
//! force, needs no fraction but for lapses.

use std::ops::Range;

use plain::check::check;
use plain::layout::{sex_of_chain, CLASSES, PRODUCT_GROUPS};
use plain::settings::{SETTINGS, SHIFTED_YEARS, WEIGHTS};
use plain::valuation::{chains_of, differences, Totals, YEARS};
use plain::Refusal;

use crate::curve::{Amounts, Curve};
use crate::reading::{one_less, read, Book, Record, BILLION};
use crate::share::Share;
use crate::tuned::outgo_and_premium;

// Settings with a projection of their own; those after them take that of the base setting, from
// which only their costs and claims differ.
const BASE: usize = 0;
const DEATHS_UP: usize = 1;
const DEATHS_DOWN: usize = 2;
const LAPSES_UP: usize = 3;
const LAPSES_DOWN: usize = 4;
const PROJECTIONS: usize = 5;

/// A record under all weights of mortality and lapse, so that rows are made once for all settings.
#[derive(Clone, Copy)]
struct Row {
    premium: Share,
    claims: Share,
    /// of settings 0, 1 and 2 in the shifted years; that of 0 serves all settings later
    living: [Share; 3],
    /// of settings 0, 3 and 4
    staying: [Share; 3],
}

#[derive(Clone, Copy, Default)]
struct Sums {
    premium: u64,
    claims: u64,
}

/// One year of a product group.
type Year = [Sums; PROJECTIONS];
type Years = [Year; YEARS];

pub fn totals(bytes: &[u8]) -> Result<Totals, Refusal> {
    let n = check(bytes)?;
    let book = read(bytes);
    let mut rows = Vec::with_capacity(CLASSES + YEARS);
    let mut groups = [[Year::default(); YEARS]; PRODUCT_GROUPS];
    for (group, years) in groups.iter_mut().enumerate() {
        project(&book, group, &mut rows, years);
    }
    let curve = Curve::new(&book.divisors);
    let base_later = value(&book, &curve, &groups, BASE, SHIFTED_YEARS..YEARS);
    let totals: [i64; SETTINGS] = std::array::from_fn(|setting| {
        // Later years of the base setting are valued once for settings 0, 5, 6 and 7.
        let later = match projection_of(setting) {
            BASE => base_later,
            _ => value(&book, &curve, &groups, setting, SHIFTED_YEARS..YEARS),
        };
        value(&book, &curve, &groups, setting, 0..SHIFTED_YEARS) + later
    });
    let differences = differences(&totals);
    Ok(Totals {
        n,
        totals,
        differences,
    })
}

fn projection_of(setting: usize) -> usize {
    if setting < PROJECTIONS {
        setting
    } else {
        BASE
    }
}

/// Steps 1 and 2 for a product group, counted from 0, in all projections.
fn project(book: &Book, group: usize, rows: &mut Vec<Row>, years: &mut Years) {
    for chain in chains_of(group + 1) {
        let records = &book.chains[chain];
        weigh(records, book.percentages[sex_of_chain(chain)], rows);
        for (record, fifty) in records.iter().zip(rows.windows(YEARS)) {
            add_cell(record.count, fifty, years);
        }
    }
}

/// The rows of a chain, and after them that of class 120 again: whoever comes to it stays there.
fn weigh(records: &[Record], percentage: u64, rows: &mut Vec<Row>) {
    let deaths = [BASE, DEATHS_UP, DEATHS_DOWN].map(|s| percentage * WEIGHTS[s].mortality[0]);
    let lapses = [BASE, LAPSES_UP, LAPSES_DOWN].map(|s| WEIGHTS[s].lapse);
    let share = |billionths| Share::new(billionths, BILLION);
    rows.clear();
    rows.extend(records.iter().map(|record| Row {
        premium: share(record.premium),
        claims: share(record.claims),
        living: deaths.map(|weight| share(one_less(record.mortality, weight))),
        staying: lapses.map(|weight| share(one_less(record.lapse, weight))),
    }));
    if let Some(last) = rows.last().copied() {
        rows.resize(records.len() + YEARS - 1, last);
    }
}

/// Projects the cell of the first of fifty rows. Fewer deaths and fewer lapses leave the most in
/// force: once neither has anything, the cell ends in all projections. Not inlined, it has all
/// registers for itself.
#[inline(never)]
fn add_cell(count: u64, rows: &[Row], years: &mut Years) {
    if count == 0 {
        return;
    }
    let (first, later) = rows.split_at(SHIFTED_YEARS);
    let [year_0, years @ ..] = years;
    let mut in_force = add_year_0(count, &first[0], year_0);
    // By reference, since a zip of slices goes by an index, with which each addition costs more.
    let mut years = years.iter_mut();
    for (row, year) in first[1..].iter().zip(years.by_ref()) {
        in_force = add_year(in_force, row, row.living.each_ref(), year);
    }
    for (row, year) in later.iter().zip(years.by_ref()) {
        if in_force[DEATHS_DOWN] | in_force[LAPSES_DOWN] == 0 {
            return;
        }
        in_force = add_year(in_force, row, [&row.living[0]; 3], year);
    }
}

/// Year 0 of a cell: a whole number of contracts is in force, so premium, claims and what lives on
/// are so many times those of one contract. By fractions each would be a whole quotient, which is
/// the case that needs correcting.
#[inline(always)]
fn add_year_0(count: u64, row: &Row, year: &mut Year) -> [u64; PROJECTIONS] {
    for sums in year {
        sums.premium += row.premium.of_whole(count);
        sums.claims += row.claims.of_whole(count);
    }
    let living = row.living.each_ref().map(|share| share.of_whole(count));
    let [base, fewer_living, more_living] = living;
    let [staying, fewer_staying, more_staying] = &row.staying;
    [
        staying.of_in_force(base),
        staying.of_in_force(fewer_living),
        staying.of_in_force(more_living),
        fewer_staying.of_in_force(base),
        more_staying.of_in_force(base),
    ]
}

/// Adds one cell's year to the sums; what is in force a year later. The projections do not wait for
/// each other, and what is in force stays in registers. Tried too: a single branch for two shares,
/// slower by a quarter or up to almost half; one projection after the other, all cells of a chain
/// year by year, slower by a fifth, and two cells side by side, by a quarter; all five while each
/// has something in force and then each alone, by a fourteenth.
#[inline(always)]
fn add_year(
    in_force: [u64; PROJECTIONS],
    row: &Row,
    [living, fewer_living, more_living]: [&Share; 3],
    [base, deaths_up, deaths_down, lapses_up, lapses_down]: &mut Year,
) -> [u64; PROJECTIONS] {
    let [staying, fewer_staying, more_staying] = &row.staying;
    [
        row.add(in_force[BASE], living, staying, base),
        row.add(in_force[DEATHS_UP], fewer_living, staying, deaths_up),
        row.add(in_force[DEATHS_DOWN], more_living, staying, deaths_down),
        row.add(in_force[LAPSES_UP], living, fewer_staying, lapses_up),
        row.add(in_force[LAPSES_DOWN], living, more_staying, lapses_down),
    ]
}

impl Row {
    #[inline(always)]
    fn add(&self, in_force: u64, living: &Share, staying: &Share, sums: &mut Sums) -> u64 {
        sums.premium += self.premium.of_in_force(in_force);
        sums.claims += self.claims.of_in_force(in_force);
        staying.of_in_force(living.of_in_force(in_force))
    }
}

/// Steps 3 and 4 for a product group in year k.
#[inline(always)]
fn due(year: &Year, cost_rate: u64, setting: usize, k: usize) -> Amounts {
    let Sums { premium, claims } = year[projection_of(setting)];
    outgo_and_premium(premium, claims, cost_rate, &WEIGHTS[setting], k)
}

/// Steps 3 to 6 in some years, added over the product groups. The amounts of all groups in a year
/// are discounted at once, since they do not wait for each other. The archive goes group by group,
/// and ends each at the last year that has an amount.
fn value(
    book: &Book,
    curve: &Curve,
    groups: &[Years; PRODUCT_GROUPS],
    setting: usize,
    years: Range<usize>,
) -> i64 {
    let mut value = 0;
    for k in years {
        let amounts: [Amounts; PRODUCT_GROUPS] =
            std::array::from_fn(|group| due(&groups[group][k], book.cost_rates[group], setting, k));
        if amounts == [[0; 2]; PRODUCT_GROUPS] {
            continue;
        }
        for [outgo, premium] in curve.discount_year(k, amounts) {
            value += outgo as i64 - premium as i64;
        }
    }
    value
}
