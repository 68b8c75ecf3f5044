//! What the tuned valuations read from a checked book.

use plain::layout::*;
use plain::settings::percentage;
use plain::valuation::YEARS;

pub const MILLION: u64 = 1_000_000;
pub const BILLION: u64 = 1_000_000_000;

/// A record of a chain, with the mortality of its class and sex.
pub struct Record {
    pub count: u64,
    pub mortality: u64,
    pub lapse: u64,
    pub premium: u64,
    pub claims: u64,
}

pub struct Book {
    pub percentages: [u64; 2],
    pub cost_rates: [u64; PRODUCT_GROUPS],
    /// 1,000,000 and the rate of year k
    pub divisors: [u64; YEARS],
    pub chains: [Vec<Record>; CHAINS],
}

pub fn read(bytes: &[u8]) -> Book {
    Book {
        percentages: std::array::from_fn(|sex| percentage(bytes, sex)),
        cost_rates: std::array::from_fn(|group| cost_rate(bytes, group + 1)),
        divisors: divisors(bytes),
        chains: std::array::from_fn(|chain| read_chain(bytes, chain)),
    }
}

/// Of product group 1 to 5.
pub fn cost_rate(bytes: &[u8], group: usize) -> u64 {
    four_bytes(bytes, COST_RATES + 4 * (group - 1)) as u64
}

/// 1,000,000 and the rate of each year; year 0 has none.
pub fn divisors(bytes: &[u8]) -> [u64; YEARS] {
    std::array::from_fn(|k| match k {
        0 => MILLION,
        _ => (MILLION as i64 + signed_four_bytes(bytes, CURVE + 4 * (k - 1)) as i64) as u64,
    })
}

pub fn read_chain(bytes: &[u8], chain: usize) -> Vec<Record> {
    let mut records = Vec::with_capacity(CLASSES);
    let mut number = two_bytes(bytes, HEADS + 2 * chain) as usize;
    while number != 0 {
        let start = record_start(number);
        let record = &bytes[start..start + RECORD_SIZE];
        let field = |at| four_bytes(record, at) as u64;
        let mortality = mortality_place(sex_of_chain(chain), record[CLASS] as usize);
        records.push(Record {
            count: field(COUNT),
            mortality: four_bytes(bytes, mortality) as u64,
            lapse: field(LAPSE),
            premium: field(PREMIUM),
            claims: field(CLAIMS),
        });
        number = two_bytes(record, NEXT) as usize;
    }
    records
}

/// What is left of a billion billionths once a weighted rate is taken from it.
pub fn one_less(rate: u64, weight: u64) -> u64 {
    BILLION - (rate * weight).min(BILLION)
}
