//! The check of a book and the view of a record, refusal by refusal in the paper's order.

use crate::layout::*;
use crate::Refusal;

/// n of an accepted book: how many linked records have a count that is not 0.
pub fn check(book: &[u8]) -> Result<u64, Refusal> {
    check_header(book)?;
    check_tables(book)?;
    let mut n = 0;
    for chain in 0..CHAINS {
        n += check_chain(book, chain)?;
    }
    Ok(n)
}

/// Where the record of this number starts.
pub fn record(book: &[u8], number: usize) -> Result<usize, Refusal> {
    check(book)?;
    refuse_if(number == 0 || number > record_count(book), 9, 0)?;
    Ok(record_start(number))
}

fn refuse_if(broken: bool, number: u64, place: usize) -> Result<(), Refusal> {
    if broken {
        Err((number, place as u64))
    } else {
        Ok(())
    }
}

/// Refusals 1 to 5, and 23.
fn check_header(book: &[u8]) -> Result<(), Refusal> {
    refuse_if(book.len() < HEADER_SIZE, 1, book.len())?;
    refuse_if(!(1..=2).contains(&book[EDITION]), 2, EDITION)?;
    refuse_if(book[AGE_BASIS] != 1, 3, AGE_BASIS)?;
    let year = two_bytes(book, SST_YEAR);
    refuse_if(!(2017..=2100).contains(&year), 4, SST_YEAR)?;
    refuse_if(record_count(book) > MOST_RECORDS, 4, RECORD_COUNT)?;
    check_by_edition(book)?;
    let due = HEADER_SIZE + RECORD_SIZE * record_count(book);
    refuse_if(book.len() != due, 5, book.len())
}

/// Bytes 6 and 7: refusal 4 in edition 1, 23 in edition 2.
fn check_by_edition(book: &[u8]) -> Result<(), Refusal> {
    if book[EDITION] == 1 {
        return refuse_if(two_bytes(book, HEADER_SPARE) != 0, 4, HEADER_SPARE);
    }
    for at in [PERCENTAGES, PERCENTAGES + 1] {
        refuse_if(!(1..=MOST_PERCENTAGE).contains(&book[at]), 23, at)?;
    }
    Ok(())
}

/// Refusals 6 to 8.
fn check_tables(book: &[u8]) -> Result<(), Refusal> {
    for at in (COST_RATES..CURVE).step_by(4) {
        refuse_if(four_bytes(book, at) > MOST_COST_RATE, 6, at)?;
    }
    for at in (CURVE..MORTALITY).step_by(4) {
        let rate = signed_four_bytes(book, at);
        refuse_if(!(LEAST_CURVE_RATE..=MOST_CURVE_RATE).contains(&rate), 7, at)?;
    }
    for at in (MORTALITY..HEADER_SIZE).step_by(4) {
        refuse_if(four_bytes(book, at) > MOST_MORTALITY, 8, at)?;
    }
    Ok(())
}

/// Refusals 9 to 13 of one chain; how many of its records have a count that is not 0.
///
/// It ends whatever the links: each record's class is one more than the last one's, up to 120.
fn check_chain(book: &[u8], chain: usize) -> Result<u64, Refusal> {
    let mut with_contracts = 0;
    let mut class_before = None;
    let mut link = HEADS + 2 * chain;
    loop {
        let number = two_bytes(book, link) as usize;
        refuse_if(number > record_count(book), 9, link)?;
        if number == 0 {
            return Ok(with_contracts);
        }
        let start = record_start(number);
        check_record(book, chain, start, class_before)?;
        if four_bytes(book, start + COUNT) != 0 {
            with_contracts += 1;
        }
        class_before = Some(book[start + CLASS]);
        link = start + NEXT;
    }
}

/// Refusals 10 to 13 of one linked record.
fn check_record(
    book: &[u8],
    chain: usize,
    start: usize,
    class_before: Option<u8>,
) -> Result<(), Refusal> {
    let owned = book[start + CODE] == code_of_chain(chain)
        && book[start + SEX] as usize == sex_of_chain(chain);
    let spares_zero = book[start + SPARE_BYTE] == 0 && two_bytes(book, start + SPARE_BYTES) == 0;
    refuse_if(!owned || !spares_zero, 10, start)?;

    let class = book[start + CLASS];
    let follows = match class_before {
        None => class as usize <= LAST_CLASS,
        Some(before) => class == before + 1,
    };
    refuse_if(!follows, 11, start + CLASS)?;

    let amounts = [
        (COUNT, MOST_COUNT),
        (LAPSE, MOST_LAPSE),
        (PREMIUM, MOST_PREMIUM),
        (CLAIMS, MOST_CLAIMS),
    ];
    for (offset, most) in amounts {
        let at = start + offset;
        refuse_if(four_bytes(book, at) > most, 12, at)?;
    }

    let ends = two_bytes(book, start + NEXT) == 0;
    let last = class as usize == LAST_CLASS;
    refuse_if(ends != last, 13, start + NEXT)
}
