//! Group and the year report in safe Rust, in the one projection that serves the setting; shares
//! and discounting go by fractions of 2^64, as in `rival.rs`.

use std::io::Write;

use plain::check::check;
use plain::layout::{sex_of_chain, CLASSES, PRODUCT_GROUPS};
use plain::settings::{percentage, Weights, SETTINGS, SHIFTED_YEARS, WEIGHTS};
use plain::valuation::{chains_of, Group, TABLE_NUMBERS, YEARS};
use plain::Refusal;

use crate::curve::{Amounts, Curve};
use crate::reading::{cost_rate, divisors, one_less, read_chain, Record, BILLION};
use crate::share::Share;
use crate::tuned::outgo_and_premium;

const HEADING: &[u8] = b"group,year,premium,outgo\n";
/// No report has more bytes.
pub const MOST_REPORT_BYTES: usize = 9_525;

/// A record under the weights of a setting.
#[derive(Clone, Copy)]
struct Row {
    premium: Share,
    claims: Share,
    /// in the shifted years and later
    living: [Share; 2],
    staying: Share,
}

#[derive(Clone, Copy, Default)]
struct Sums {
    premium: u64,
    claims: u64,
}

/// A product group in a setting: its n, and outgo and premium of each year before discounting.
struct Projected {
    n: u64,
    amounts: [Amounts; YEARS],
}

/// The liability and n of a product group; fills the first 200 numbers of the table.
pub fn group(
    bytes: &[u8],
    setting: usize,
    group: usize,
    table: &mut [u64],
) -> Result<Group, Refusal> {
    refuse_if(setting >= SETTINGS, 14)?;
    refuse_if(!(1..=PRODUCT_GROUPS).contains(&group), 15)?;
    refuse_if(table.len() < TABLE_NUMBERS, 16)?;
    check(bytes)?;
    let mut rows = Vec::with_capacity(CLASSES + YEARS);
    let Projected { n, amounts } = project(bytes, setting, group, &mut rows);
    let mut discounted = amounts;
    Curve::new(&divisors(bytes)).discount_years(0, &mut discounted);
    let mut liability = 0;
    let years = amounts.iter().zip(&discounted);
    for (four, (due, discounted)) in table.chunks_exact_mut(4).zip(years) {
        let [outgo, premium] = *discounted;
        four.copy_from_slice(&[due[1], due[0], premium, outgo]);
        liability += outgo as i64 - premium as i64;
    }
    Ok(Group { liability, n })
}

/// Writes the year report to the start of a buffer; its length. It shows no discounted amount, so
/// nothing is discounted.
pub fn report(bytes: &[u8], setting: usize, out: &mut [u8]) -> Result<usize, Refusal> {
    refuse_if(setting >= SETTINGS, 14)?;
    check(bytes)?;
    let mut rows = Vec::with_capacity(CLASSES + YEARS);
    let mut text = Vec::with_capacity(MOST_REPORT_BYTES);
    text.extend_from_slice(HEADING);
    for group in 1..=PRODUCT_GROUPS {
        let Projected { amounts, .. } = project(bytes, setting, group, &mut rows);
        for (k, [outgo, premium]) in amounts.into_iter().enumerate() {
            writeln!(text, "{group},{k},{premium},{outgo}").expect("a vector takes all bytes");
        }
    }
    refuse_if(out.len() < text.len(), 20)?;
    out[..text.len()].copy_from_slice(&text);
    Ok(text.len())
}

fn refuse_if(broken: bool, number: u64) -> Result<(), Refusal> {
    if broken {
        Err((number, 0))
    } else {
        Ok(())
    }
}

/// Steps 1 to 4 for a product group. The rows are room to work in.
fn project(bytes: &[u8], setting: usize, group: usize, rows: &mut Vec<Row>) -> Projected {
    let weights = &WEIGHTS[setting];
    let mut n = 0;
    let mut sums = [Sums::default(); YEARS];
    for chain in chains_of(group) {
        let records = read_chain(bytes, chain);
        weigh(
            &records,
            percentage(bytes, sex_of_chain(chain)),
            weights,
            rows,
        );
        for (record, fifty) in records.iter().zip(rows.windows(YEARS)) {
            n += (record.count != 0) as u64;
            add_cell(record.count, fifty, &mut sums);
        }
    }
    let cost_rate = cost_rate(bytes, group);
    let amounts = std::array::from_fn(|k| {
        let Sums { premium, claims } = sums[k];
        outgo_and_premium(premium, claims, cost_rate, weights, k)
    });
    Projected { n, amounts }
}

/// The rows of a chain, and after them that of class 120 again: whoever comes to it stays there.
fn weigh(records: &[Record], percentage: u64, weights: &Weights, rows: &mut Vec<Row>) {
    let share = |billionths| Share::new(billionths, BILLION);
    let deaths = weights.mortality.map(|weight| percentage * weight);
    rows.clear();
    rows.extend(records.iter().map(|record| Row {
        premium: share(record.premium),
        claims: share(record.claims),
        living: deaths.map(|weight| share(one_less(record.mortality, weight))),
        staying: share(one_less(record.lapse, weights.lapse)),
    }));
    if let Some(last) = rows.last().copied() {
        rows.resize(records.len() + YEARS - 1, last);
    }
}

/// Projects the cell of the first of fifty rows, until nothing is in force.
#[inline(never)]
fn add_cell(count: u64, rows: &[Row], sums: &mut [Sums; YEARS]) {
    if count == 0 {
        return;
    }
    let (first, later) = rows.split_at(SHIFTED_YEARS);
    let [sums_0, sums @ ..] = sums;
    let mut in_force = add_year_0(count, &first[0], sums_0);
    // By reference, since a zip of slices goes by an index, with which each addition costs more.
    let mut sums = sums.iter_mut();
    for (row, sums) in first[1..].iter().zip(sums.by_ref()) {
        if in_force == 0 {
            return;
        }
        in_force = add_year(in_force, row, &row.living[0], sums);
    }
    for (row, sums) in later.iter().zip(sums.by_ref()) {
        if in_force == 0 {
            return;
        }
        in_force = add_year(in_force, row, &row.living[1], sums);
    }
}

/// Year 0 of a cell: a whole number of contracts is in force.
#[inline(always)]
fn add_year_0(count: u64, row: &Row, sums: &mut Sums) -> u64 {
    sums.premium += row.premium.of_whole(count);
    sums.claims += row.claims.of_whole(count);
    row.staying.of_in_force(row.living[0].of_whole(count))
}

/// Adds one cell's year to the sums; what is in force a year later.
#[inline(always)]
fn add_year(in_force: u64, row: &Row, living: &Share, sums: &mut Sums) -> u64 {
    sums.premium += row.premium.of_in_force(in_force);
    sums.claims += row.claims.of_in_force(in_force);
    row.staying.of_in_force(living.of_in_force(in_force))
}
