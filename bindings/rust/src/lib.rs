//! Safe calls of the proved check and valuation of a parameter book, of its cost rates out of
//! accounts, and of the spread of yearly claims.
//!
//! `include/xaropinto.h` says what each call answers and which refusals it gives. Nothing checks
//! the declarations in `c_api` against the archive but the tests.

mod c_api;
mod refusals;

use std::error::Error;
use std::fmt;

pub use c_api::{Accounts, RiskModel, Summary, Values};

use c_api::xaropinto_deviation;
use c_api::xaropinto_in_force;
use c_api::xaropinto_practice;
use c_api::{
    xaropinto_check, xaropinto_convert, xaropinto_cost_rates, xaropinto_group, xaropinto_listing,
    xaropinto_read, xaropinto_record, xaropinto_spread, xaropinto_totals, xaropinto_version,
    xaropinto_write,
};
use c_api::{xaropinto_funds, Verdict};
use c_api::{xaropinto_report, xaropinto_report_room};

/// The first rule that is broken, and the byte of the book where; 0 where none is named.
#[derive(Clone, Copy, Debug, PartialEq, Eq)]
pub struct Refusal {
    pub number: u64,
    pub place: u64,
}

impl fmt::Display for Refusal {
    fn fmt(&self, line: &mut fmt::Formatter) -> fmt::Result {
        write!(
            line,
            "refused {} {}: {}",
            self.number,
            self.place,
            self.words()
        )
    }
}

impl Refusal {
    /// The broken rule, and who mends it.
    pub fn words(&self) -> &'static str {
        refusals::words(self.number)
    }
}

impl Error for Refusal {}

/// An accepted book.
#[derive(Clone, Copy, Debug, PartialEq, Eq)]
pub struct Accepted {
    /// how many linked records have a count that is not 0
    pub n: u64,
}

/// A product group in a setting.
#[derive(Clone, Copy, Debug, PartialEq, Eq)]
pub struct Group {
    /// in centimes, negative where it is a credit
    pub liability: i64,
    /// how many linked records of the group have a count that is not 0
    pub n: u64,
}

/// The five product groups together.
#[derive(Clone, Copy, Debug, PartialEq, Eq)]
pub struct Totals {
    /// how many linked records have a count that is not 0
    pub n: u64,
    /// in centimes, by setting
    pub totals: [i64; 8],
    /// setting 1 less 2, 3 less 4, 5 less 6, 7 less 0
    pub differences: [i64; 4],
}

/// The spread of yearly claims.
#[derive(Clone, Copy, Debug, PartialEq)]
pub enum Spread {
    /// The mean in centimes, and the deviation over it.
    Coefficient { mean: f64, coefficient: f64 },
    /// All claims are alike.
    Level { mean: f64 },
}

/// The version of the library that is linked, as one number: 20200 for 2.2.0.
pub fn version() -> u64 {
    // SAFETY: it takes nothing.
    unsafe { xaropinto_version() }
}

/// Is this a book?
pub fn check(book: &[u8]) -> Result<Accepted, Refusal> {
    // SAFETY: a slice's pointer is not null and is valid for its length.
    let reply = unsafe { xaropinto_check(book.as_ptr(), book.len()) };
    unless_refused(reply.refusal, reply.place)?;
    Ok(Accepted { n: reply.n })
}

/// The liability of product group 1 to 5 in setting 0 to 7.
///
/// Where accepted, the first 200 numbers of the table become, for each of fifty years: premium
/// after the cap, outgo, discounted premium, discounted outgo. All others stay as they were.
pub fn group(
    book: &[u8],
    setting: usize,
    group: usize,
    table: &mut [u64],
) -> Result<Group, Refusal> {
    // SAFETY: as in `check`; the table is passed to this call alone, so it does not overlap the
    // book.
    let reply = unsafe {
        xaropinto_group(
            book.as_ptr(),
            book.len(),
            setting,
            group,
            table.as_mut_ptr(),
            table.len(),
        )
    };
    unless_refused(reply.refusal, reply.place)?;
    Ok(Group {
        liability: reply.liability,
        n: reply.n,
    })
}

/// The liabilities of the five product groups added, in each of the eight settings.
pub fn totals(book: &[u8]) -> Result<Totals, Refusal> {
    // SAFETY: as in `check`.
    let reply = unsafe { xaropinto_totals(book.as_ptr(), book.len()) };
    unless_refused(reply.refusal, reply.place)?;
    Ok(Totals {
        n: reply.n,
        totals: reply.totals,
        differences: reply.differences,
    })
}

/// The listing of a book, in the first bytes of `out`; its length.
///
/// No listing is longer than 512 bytes. Where refused, and past the listing, `out` stays as it was;
/// 20 where it is shorter than the listing.
pub fn listing(book: &[u8], out: &mut [u8]) -> Result<usize, Refusal> {
    // SAFETY: as in `group`; a buffer of bytes may start anywhere.
    let reply =
        unsafe { xaropinto_listing(book.as_ptr(), book.len(), out.as_mut_ptr(), out.len()) };
    unless_refused(reply.refusal, reply.place)?;
    Ok(reply.length as usize)
}

/// The 24 bytes of a record, linked or not, as a part of the book; records are numbered from 1.
pub fn record(book: &[u8], number: usize) -> Result<&[u8], Refusal> {
    // SAFETY: as in `check`.
    let reply = unsafe { xaropinto_record(book.as_ptr(), book.len(), number) };
    unless_refused(reply.refusal, reply.place)?;
    let start = reply.start as usize;
    Ok(&book[start..start + reply.length as usize])
}

/// The cost rates of PG1 to PG5 in millionths of premium, each at most 1,000,000.
pub fn cost_rates(accounts: &Accounts) -> Result<[u64; 5], Refusal> {
    // SAFETY: the accounts go by value, and every number in them is allowed.
    let reply = unsafe { xaropinto_cost_rates(*accounts) };
    unless_refused(reply.refusal, reply.place)?;
    Ok(reply.rates)
}

/// Writes the year report of a setting to the start of the buffer, which must be at least as long
/// as `report_room` gives; how many bytes it has. Where refused, and past the report, the buffer
/// stays as it was.
pub fn report(book: &[u8], setting: usize, out: &mut [u8]) -> Result<usize, Refusal> {
    // SAFETY: as in `group`.
    let reply = unsafe {
        xaropinto_report(
            book.as_ptr(),
            book.len(),
            setting,
            out.as_mut_ptr(),
            out.len(),
        )
    };
    unless_refused(reply.refusal, reply.place)?;
    Ok(reply.length as usize)
}

/// How long a buffer `report` wants for this book and setting: the report's length, to the byte.
pub fn report_room(book: &[u8], setting: usize) -> Result<usize, Refusal> {
    // SAFETY: as in `check`.
    let reply = unsafe { xaropinto_report_room(book.as_ptr(), book.len(), setting) };
    unless_refused(reply.refusal, reply.place)?;
    Ok(reply.length as usize)
}

/// A book on age basis 2 turned into basis 1.
///
/// Where accepted, the first bytes of `out`, as many as the book has, become the converted book.
/// All others stay as they were.
pub fn convert(book: &[u8], out: &mut [u8]) -> Result<Accepted, Refusal> {
    // SAFETY: as in `check`; `out` is passed to this call alone, so it does not overlap the book.
    let reply =
        unsafe { xaropinto_convert(book.as_ptr(), book.len(), out.as_mut_ptr(), out.len()) };
    unless_refused(reply.refusal, reply.place)?;
    Ok(Accepted { n: reply.n })
}

/// The book of these values and lists, in the first bytes of `out`; its length.
///
/// Each list holds the lists of the chains end to end; a chain's has 121 less its first class, by
/// rising class.
pub fn write(
    values: &Values,
    counts: &[u64],
    lapses: &[u64],
    premiums: &[u64],
    claims: &[u64],
    out: &mut [u8],
) -> Result<usize, Refusal> {
    // SAFETY: as in `group`; the lists are only read.
    let reply = unsafe {
        xaropinto_write(
            *values,
            counts.as_ptr(),
            counts.len(),
            lapses.as_ptr(),
            lapses.len(),
            premiums.as_ptr(),
            premiums.len(),
            claims.as_ptr(),
            claims.len(),
            out.as_mut_ptr(),
            out.len(),
        )
    };
    unless_refused(reply.refusal, reply.place)?;
    Ok(reply.length as usize)
}

/// The values of a book; its lists fill the first numbers of the four lists, and all others stay as
/// they were.
pub fn read(
    book: &[u8],
    counts: &mut [u64],
    lapses: &mut [u64],
    premiums: &mut [u64],
    claims: &mut [u64],
) -> Result<Values, Refusal> {
    // SAFETY: as in `group`; each list is passed to this call alone, so no two overlap.
    let reply = unsafe {
        xaropinto_read(
            book.as_ptr(),
            book.len(),
            counts.as_mut_ptr(),
            counts.len(),
            lapses.as_mut_ptr(),
            lapses.len(),
            premiums.as_mut_ptr(),
            premiums.len(),
            claims.as_mut_ptr(),
            claims.len(),
        )
    };
    unless_refused(reply.refusal, reply.place)?;
    Ok(reply.values)
}

/// Two funds on the same tables: each fund's own reply.
///
/// The table file is bytes 56 to 1,219 of a book, a fund file bytes 0 to 55 and the records. Where
/// a fund is accepted, the eight totals of the book that its file and the table file make together
/// come in numbers 0 to 7 for the first, 8 to 15 for the second. All others stay as they were.
pub fn funds(
    table: &[u8],
    first: &[u8],
    second: &[u8],
    numbers: &mut [i64],
) -> [Result<Accepted, Refusal>; 2] {
    // SAFETY: as in `group`; the files are only read.
    let reply = unsafe {
        xaropinto_funds(
            table.as_ptr(),
            table.len(),
            first.as_ptr(),
            first.len(),
            second.as_ptr(),
            second.len(),
            numbers.as_mut_ptr(),
            numbers.len(),
        )
    };
    [reply.first, reply.second].map(accepted)
}

fn accepted(verdict: Verdict) -> Result<Accepted, Refusal> {
    unless_refused(verdict.refusal, verdict.place)?;
    Ok(Accepted { n: verdict.n })
}

/// What is in force of the linked record of a subgroup code, sex and class, year by year.
///
/// Where accepted, the first 50 numbers of `out` become billionths of a contract at k = 0 to 49.
/// All others stay as they were.
pub fn in_force(
    book: &[u8],
    setting: usize,
    code: usize,
    sex: usize,
    age_class: usize,
    out: &mut [u64],
) -> Result<(), Refusal> {
    // SAFETY: as in `group`.
    let reply = unsafe {
        xaropinto_in_force(
            book.as_ptr(),
            book.len(),
            setting,
            code,
            sex,
            age_class,
            out.as_mut_ptr(),
            out.len(),
        )
    };
    unless_refused(reply.refusal, reply.place)
}

/// Mean and coefficient of yearly claims, by their five-number summary and two sample factors.
pub fn spread(claims: &Summary, xi: f64, eta: f64) -> Result<Spread, Refusal> {
    // SAFETY: all goes by value, and every number is allowed.
    let reply = unsafe { xaropinto_spread(*claims, xi, eta) };
    unless_refused(reply.refusal, reply.place)?;
    let (mean, coefficient) = (reply.mean, reply.coefficient);
    Ok(if reply.level != 0 {
        Spread::Level { mean }
    } else {
        Spread::Coefficient { mean, coefficient }
    })
}

/// One standard deviation of the four risk factors of a book, in thousand francs.
pub fn deviation(book: &[u8], model: &RiskModel) -> Result<u64, Refusal> {
    // SAFETY: as in `check`; the model goes by value, and every number in it is allowed.
    let reply = unsafe { xaropinto_deviation(book.as_ptr(), book.len(), *model) };
    unless_refused(reply.refusal, reply.place)?;
    Ok(reply.deviation)
}

/// The practice book of a start number, in the first bytes of `out`; its length.
///
/// The same start number always gives the same bytes. Those past the book stay as they were.
pub fn practice(start: u64, out: &mut [u8]) -> Result<usize, Refusal> {
    // SAFETY: as in `group`; `out` is passed to this call alone.
    let reply = unsafe { xaropinto_practice(start, out.as_mut_ptr(), out.len()) };
    unless_refused(reply.refusal, reply.place)?;
    Ok(reply.length as usize)
}

fn unless_refused(number: u64, place: u64) -> Result<(), Refusal> {
    if number == 0 {
        Ok(())
    } else {
        Err(Refusal { number, place })
    }
}
