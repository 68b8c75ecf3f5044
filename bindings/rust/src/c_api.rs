//! The declarations of `include/xaropinto.h`, in its order.

#[repr(C)]
pub struct Verdict {
    pub refusal: u64,
    pub place: u64,
    pub n: u64,
}

#[repr(C)]
pub struct GroupReply {
    pub refusal: u64,
    pub place: u64,
    pub liability: i64,
    pub n: u64,
}

#[repr(C)]
pub struct TotalsReply {
    pub refusal: u64,
    pub place: u64,
    pub n: u64,
    pub totals: [i64; 8],
    pub differences: [i64; 4],
}

#[repr(C)]
pub struct RecordReply {
    pub refusal: u64,
    pub place: u64,
    pub start: u64,
    pub length: u64,
}

/// Three years of accounts, by year and then by product group, PG1 first.
///
/// Stock is in contracts, all else in whole francs; the expenses are adjusted, but not yet lowered
/// by 5 percent.
#[repr(C)]
#[derive(Clone, Copy, Debug, PartialEq, Eq)]
pub struct Accounts {
    pub expenses: [u64; 3],
    pub stock: [[u64; 5]; 3],
    pub claims: [[u64; 5]; 3],
    pub premium: [[u64; 5]; 3],
}

#[repr(C)]
pub struct CostRatesReply {
    pub refusal: u64,
    pub place: u64,
    pub rates: [u64; 5],
}

#[repr(C)]
pub struct ReportReply {
    pub refusal: u64,
    pub place: u64,
    pub length: u64,
}

/// What a book says before its records, and where its chains begin; `include/xaropinto.h` has
/// the order of each table.
#[repr(C)]
#[derive(Clone, Copy, Debug, PartialEq, Eq)]
pub struct Values {
    pub edition: u64,
    pub percentages: [u64; 2],
    pub year: u64,
    pub cost_rates: [u64; 5],
    pub curve: [i64; 49],
    pub mortality: [u64; 242],
    pub first_classes: [u64; 14],
}

#[repr(C)]
pub struct WriteReply {
    pub refusal: u64,
    pub place: u64,
    pub length: u64,
}

#[repr(C)]
pub struct ReadReply {
    pub refusal: u64,
    pub place: u64,
    pub values: Values,
}

#[repr(C)]
pub struct FundsReply {
    pub first: Verdict,
    pub second: Verdict,
}

#[repr(C)]
pub struct InForceReply {
    pub refusal: u64,
    pub place: u64,
}

/// Yearly claims in whole centimes, from the lowest to the highest.
#[repr(C)]
#[derive(Clone, Copy, Debug, PartialEq, Eq)]
pub struct Summary {
    pub lowest: u64,
    pub first_quartile: u64,
    pub median: u64,
    pub third_quartile: u64,
    pub highest: u64,
}

#[repr(C)]
pub struct SpreadReply {
    pub refusal: u64,
    pub place: u64,
    pub level: u64,
    pub mean: f64,
    pub coefficient: f64,
}

/// Mortality, lapse, costs and claims: their coefficients of variation in millionths, and their
/// correlation in thousandths, by row and column.
#[repr(C)]
#[derive(Clone, Copy, Debug, PartialEq, Eq)]
pub struct RiskModel {
    pub coefficients: [u64; 4],
    pub correlation: [[i64; 4]; 4],
}

#[repr(C)]
pub struct DeviationReply {
    pub refusal: u64,
    pub place: u64,
    pub deviation: u64,
}

extern "C" {
    pub fn xaropinto_version() -> u64;

    pub fn xaropinto_check(book: *const u8, length: usize) -> Verdict;

    pub fn xaropinto_group(
        book: *const u8,
        length: usize,
        setting: usize,
        group: usize,
        table: *mut u64,
        numbers: usize,
    ) -> GroupReply;

    pub fn xaropinto_totals(book: *const u8, length: usize) -> TotalsReply;

    pub fn xaropinto_listing(
        book: *const u8,
        length: usize,
        out: *mut u8,
        bytes: usize,
    ) -> ReportReply;

    pub fn xaropinto_record(book: *const u8, length: usize, number: usize) -> RecordReply;

    pub fn xaropinto_cost_rates(accounts: Accounts) -> CostRatesReply;

    pub fn xaropinto_report(
        book: *const u8,
        length: usize,
        setting: usize,
        out: *mut u8,
        bytes: usize,
    ) -> ReportReply;

    pub fn xaropinto_report_room(book: *const u8, length: usize, setting: usize) -> ReportReply;

    pub fn xaropinto_convert(book: *const u8, length: usize, out: *mut u8, size: usize) -> Verdict;

    pub fn xaropinto_write(
        values: Values,
        counts: *const u64,
        counts_length: usize,
        lapses: *const u64,
        lapses_length: usize,
        premiums: *const u64,
        premiums_length: usize,
        claims: *const u64,
        claims_length: usize,
        out: *mut u8,
        size: usize,
    ) -> WriteReply;

    pub fn xaropinto_read(
        book: *const u8,
        length: usize,
        counts: *mut u64,
        counts_length: usize,
        lapses: *mut u64,
        lapses_length: usize,
        premiums: *mut u64,
        premiums_length: usize,
        claims: *mut u64,
        claims_length: usize,
    ) -> ReadReply;

    pub fn xaropinto_funds(
        table: *const u8,
        table_length: usize,
        first: *const u8,
        first_length: usize,
        second: *const u8,
        second_length: usize,
        numbers: *mut i64,
        count: usize,
    ) -> FundsReply;

    pub fn xaropinto_in_force(
        book: *const u8,
        length: usize,
        setting: usize,
        code: usize,
        sex: usize,
        age_class: usize,
        out: *mut u64,
        numbers: usize,
    ) -> InForceReply;

    pub fn xaropinto_spread(claims: Summary, xi: f64, eta: f64) -> SpreadReply;

    pub fn xaropinto_deviation(book: *const u8, length: usize, model: RiskModel) -> DeviationReply;

    pub fn xaropinto_practice(start: u64, out: *mut u8, size: usize) -> WriteReply;
}
