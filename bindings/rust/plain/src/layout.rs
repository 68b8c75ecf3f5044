//! Where the fields of a book stand, and how they are read.

pub const HEADER_SIZE: usize = 1_220;
pub const RECORD_SIZE: usize = 24;
pub const MOST_RECORDS: usize = 1_694;
pub const LONGEST_BOOK: usize = HEADER_SIZE + RECORD_SIZE * MOST_RECORDS;
pub const CHAINS: usize = 14;
pub const LAST_CLASS: usize = 120;
pub const CLASSES: usize = LAST_CLASS + 1;
pub const PRODUCT_GROUPS: usize = 5;
/// Rates of the curve: one for each year but the first.
pub const CURVE_YEARS: usize = 49;

// In the header.
pub const EDITION: usize = 0;
pub const AGE_BASIS: usize = 1;
pub const SST_YEAR: usize = 2;
pub const RECORD_COUNT: usize = 4;
/// Spare in edition 1; in edition 2 the mortality percentages of men and women, a byte each.
pub const HEADER_SPARE: usize = 6;
pub const PERCENTAGES: usize = HEADER_SPARE;
pub const HEADS: usize = 8;
pub const COST_RATES: usize = 36;
pub const CURVE: usize = 56;
pub const MORTALITY: usize = 252;

// In a record.
pub const CODE: usize = 0;
pub const SEX: usize = 1;
pub const CLASS: usize = 2;
pub const SPARE_BYTE: usize = 3;
pub const NEXT: usize = 4;
pub const SPARE_BYTES: usize = 6;
pub const COUNT: usize = 8;
pub const LAPSE: usize = 12;
pub const PREMIUM: usize = 16;
pub const CLAIMS: usize = 20;

// The greatest numbers that pass.
pub const MOST_PERCENTAGE: u8 = 100;
pub const MOST_COST_RATE: u32 = 1_000_000;
pub const LEAST_CURVE_RATE: i32 = -10_000;
pub const MOST_CURVE_RATE: i32 = 200_000;
pub const MOST_MORTALITY: u32 = 1_000_000;
pub const MOST_COUNT: u32 = 100_000;
pub const MOST_LAPSE: u32 = 1_000_000;
pub const MOST_PREMIUM: u32 = 10_000_000;
pub const MOST_CLAIMS: u32 = 10_000_000;

/// Records are numbered from 1.
pub fn record_start(number: usize) -> usize {
    HEADER_SIZE + RECORD_SIZE * (number - 1)
}

/// Chains come by code, the men's before the women's.
pub fn code_of_chain(chain: usize) -> u8 {
    (chain / 2 + 1) as u8
}

pub fn sex_of_chain(chain: usize) -> usize {
    chain % 2
}

pub fn two_bytes(book: &[u8], at: usize) -> u16 {
    u16::from_le_bytes([book[at], book[at + 1]])
}

pub fn four_bytes(book: &[u8], at: usize) -> u32 {
    u32::from_le_bytes([book[at], book[at + 1], book[at + 2], book[at + 3]])
}

pub fn signed_four_bytes(book: &[u8], at: usize) -> i32 {
    four_bytes(book, at) as i32
}

pub fn record_count(book: &[u8]) -> usize {
    two_bytes(book, RECORD_COUNT) as usize
}

pub fn mortality_place(sex: usize, class: usize) -> usize {
    MORTALITY + 4 * (CLASSES * sex + class)
}
