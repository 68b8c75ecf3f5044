//! Group and Totals, step by step in 128 bits; every division rounds down.

use crate::check::check;
use crate::layout::*;
use crate::settings::{later, percentage, Weights, SETTINGS, WEIGHTS};
use crate::Refusal;

pub const YEARS: usize = 50;
pub const TABLE_NUMBERS: usize = 4 * YEARS;
const FIRST_CAPPED_YEAR: usize = 5;
const MILLION: u128 = 1_000_000;
const BILLION: u128 = 1_000_000_000;

#[derive(Clone, Copy, Debug, PartialEq, Eq)]
pub struct Group {
    pub liability: i64,
    pub n: u64,
}

#[derive(Clone, Copy, Debug, PartialEq, Eq)]
pub struct Totals {
    pub n: u64,
    pub totals: [i64; SETTINGS],
    pub differences: [i64; 4],
}

/// What the record of one class holds.
struct Record {
    class: usize,
    count: u128,
    lapse: u128,
    premium: u128,
    claims: u128,
}

/// The sums of a product group in one year, before weights and cap.
#[derive(Clone, Copy, Default)]
struct Sums {
    premium: u128,
    claims: u128,
}

/// The four numbers of the year table.
struct Year {
    premium: u128,
    outgo: u128,
    discounted_premium: u128,
    discounted_outgo: u128,
}

/// The liability and n of a product group; fills the first 200 numbers of the table.
pub fn group(
    book: &[u8],
    setting: usize,
    group: usize,
    table: &mut [u64],
) -> Result<Group, Refusal> {
    if setting >= SETTINGS {
        return Err((14, 0));
    }
    if !(1..=PRODUCT_GROUPS).contains(&group) {
        return Err((15, 0));
    }
    if table.len() < TABLE_NUMBERS {
        return Err((16, 0));
    }
    check(book)?;
    let years = years_of(book, setting, group);
    for (four, year) in table.chunks_exact_mut(4).zip(&years) {
        four[0] = table_number(year.premium);
        four[1] = table_number(year.outgo);
        four[2] = table_number(year.discounted_premium);
        four[3] = table_number(year.discounted_outgo);
    }
    Ok(Group {
        liability: liability(&years),
        n: with_contracts(book, group),
    })
}

fn table_number(amount: u128) -> u64 {
    u64::try_from(amount).expect("every amount of an accepted book fits in 64 bits")
}

/// The eight totals, their differences and n.
pub fn totals(book: &[u8]) -> Result<Totals, Refusal> {
    let n = check(book)?;
    let mut totals = [0; SETTINGS];
    for (setting, total) in totals.iter_mut().enumerate() {
        for group in 1..=PRODUCT_GROUPS {
            *total += liability(&years_of(book, setting, group));
        }
    }
    let differences = differences(&totals);
    Ok(Totals {
        n,
        totals,
        differences,
    })
}

pub fn differences(totals: &[i64; SETTINGS]) -> [i64; 4] {
    [
        totals[1] - totals[2],
        totals[3] - totals[4],
        totals[5] - totals[6],
        totals[7] - totals[0],
    ]
}

/// The chains of a product group: PG1 has three subgroups, each other group is one.
pub fn chains_of(group: usize) -> std::ops::Range<usize> {
    match group {
        1 => 0..6,
        _ => 2 * group + 2..2 * group + 4,
    }
}

/// The records of a chain, by rising class up to 120.
fn chain_records(book: &[u8], chain: usize) -> Vec<Record> {
    let mut records = Vec::new();
    let mut number = two_bytes(book, HEADS + 2 * chain) as usize;
    while number != 0 {
        let start = record_start(number);
        let amount = |offset| four_bytes(book, start + offset) as u128;
        records.push(Record {
            class: book[start + CLASS] as usize,
            count: amount(COUNT),
            lapse: amount(LAPSE),
            premium: amount(PREMIUM),
            claims: amount(CLAIMS),
        });
        number = two_bytes(book, start + NEXT) as usize;
    }
    records
}

fn with_contracts(book: &[u8], group: usize) -> u64 {
    chains_of(group)
        .flat_map(|chain| chain_records(book, chain))
        .filter(|record| record.count != 0)
        .count() as u64
}

/// Step 1: what is in force a year later, of those who first may die and then may lapse.
fn next_in_force(in_force: u128, mortality: u128, lapse: u128) -> u128 {
    let living = in_force * (BILLION - mortality.min(BILLION)) / BILLION;
    living * (BILLION - lapse.min(BILLION)) / BILLION
}

/// Steps 1 and 2: the year sums of a product group. The records from a cell's own on are those of
/// the classes that it reaches; once at class 120, the last, it stays there.
fn year_sums(book: &[u8], setting: usize, group: usize) -> [Sums; YEARS] {
    let mut sums = [Sums::default(); YEARS];
    let weights = &WEIGHTS[setting];
    for chain in chains_of(group) {
        let sex = sex_of_chain(chain);
        let percentage = percentage(book, sex);
        let records = chain_records(book, chain);
        for (own, cell) in records.iter().enumerate() {
            let mut in_force = cell.count * BILLION;
            for (k, sums) in sums.iter_mut().enumerate() {
                let reached = &records[(own + k).min(records.len() - 1)];
                sums.premium += in_force * reached.premium / BILLION;
                sums.claims += in_force * reached.claims / BILLION;
                let mortality = four_bytes(book, mortality_place(sex, reached.class)) as u128;
                in_force = next_in_force(
                    in_force,
                    mortality * (percentage * weights.mortality[later(k)]) as u128,
                    reached.lapse * weights.lapse as u128,
                );
            }
        }
    }
    sums
}

/// Step 3, with the cost of the premium before the cap.
fn outgo(sums: Sums, cost_rate: u128, weights: &Weights, k: usize) -> u128 {
    let [claims, costs] = [weights.claims, weights.costs].map(|weight| weight[later(k)] as u128);
    sums.claims * claims / 1_000 + sums.premium * cost_rate * costs / BILLION
}

/// Step 4: the premium that counts.
fn capped(premium: u128, outgo: u128, k: usize) -> u128 {
    if k < FIRST_CAPPED_YEAR {
        premium
    } else {
        premium.min(10 * outgo / 9)
    }
}

/// Step 5: k years back, each at the rate of year k.
fn discounted(amount: u128, divisor: u128, k: usize) -> u128 {
    (0..k).fold(amount, |amount, _| amount * MILLION / divisor)
}

/// 1,000,000 and the rate of year k; there is none for k = 0.
fn divisor(book: &[u8], k: usize) -> u128 {
    if k == 0 {
        return MILLION;
    }
    (MILLION as i128 + signed_four_bytes(book, CURVE + 4 * (k - 1)) as i128) as u128
}

/// Steps 1 to 5: the fifty years of a product group.
fn years_of(book: &[u8], setting: usize, group: usize) -> Vec<Year> {
    let cost_rate = four_bytes(book, COST_RATES + 4 * (group - 1)) as u128;
    let mut years = Vec::new();
    for (k, sums) in year_sums(book, setting, group).into_iter().enumerate() {
        let outgo = outgo(sums, cost_rate, &WEIGHTS[setting], k);
        let premium = capped(sums.premium, outgo, k);
        let divisor = divisor(book, k);
        years.push(Year {
            premium,
            outgo,
            discounted_premium: discounted(premium, divisor, k),
            discounted_outgo: discounted(outgo, divisor, k),
        });
    }
    years
}

/// Step 6.
fn liability(years: &[Year]) -> i64 {
    let outgo: u128 = years.iter().map(|year| year.discounted_outgo).sum();
    let premium: u128 = years.iter().map(|year| year.discounted_premium).sum();
    i64::try_from(outgo as i128 - premium as i128).expect("every liability fits in 64 bits")
}
