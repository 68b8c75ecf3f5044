//! Random damage to valid books: single bytes, fields, lengths and links.

use crate::book::{put_four, put_two};
use crate::chooser::Chooser;
use crate::layout::*;

/// The book with one to three damages, none of which need break a rule.
pub fn damage(book: &mut Vec<u8>, chooser: &mut Chooser) {
    for _ in 0..chooser.pick(&[1, 1, 1, 2, 3]) {
        match chooser.below(16) {
            0 => damage_byte(book, chooser),
            1 => damage_length(book, chooser),
            2..=4 => damage_header(book, chooser),
            5..=7 => damage_table(book, chooser),
            8..=9 => damage_link(book, chooser),
            _ => damage_record(book, chooser),
        }
    }
}

/// How many records the book is long enough to hold.
fn records_held(book: &[u8]) -> usize {
    book.len().saturating_sub(HEADER_SIZE) / RECORD_SIZE
}

fn damage_byte(book: &mut [u8], chooser: &mut Chooser) {
    if !book.is_empty() {
        let at = chooser.below(book.len());
        book[at] = chooser.draw() as u8;
    }
}

fn damage_length(book: &mut Vec<u8>, chooser: &mut Chooser) {
    let length = match chooser.below(6) {
        0 => book.len() + 1,
        1 => book.len() + RECORD_SIZE,
        2 => book.len().saturating_sub(1),
        3 => book.len().saturating_sub(RECORD_SIZE),
        4 => chooser.below(HEADER_SIZE),
        _ => chooser.below(LONGEST_BOOK + 2),
    };
    book.resize(length, 0);
}

fn damage_header(book: &mut [u8], chooser: &mut Chooser) {
    if book.len() < HEADER_SIZE {
        return;
    }
    match chooser.below(6) {
        0 => book[EDITION] = chooser.pick(&[0, 1, 2, 3]),
        1 => book[AGE_BASIS] = chooser.pick(&[0, 2]),
        2 => put_two(book, SST_YEAR, chooser.pick(&[2016, 2017, 2100, 2101])),
        3 => put_two(book, RECORD_COUNT, chooser.pick(&[0, 1_694, 1_695])),
        4 => book[HEADER_SPARE + chooser.below(2)] = 1,
        _ => book[PERCENTAGES + chooser.below(2)] = chooser.pick(&[0, 101, 255]),
    }
}

fn damage_table(book: &mut [u8], chooser: &mut Chooser) {
    if book.len() < HEADER_SIZE {
        return;
    }
    match chooser.below(3) {
        0 => {
            let at = COST_RATES + 4 * chooser.below(PRODUCT_GROUPS);
            put_four(book, at, around(chooser, MOST_COST_RATE));
        }
        1 => {
            let at = CURVE + 4 * chooser.below(CURVE_YEARS);
            let rates = [-10_001, -10_000, 200_000, 200_001, i32::MIN, i32::MAX];
            put_four(book, at, chooser.pick(&rates) as u32);
        }
        _ => {
            let at = MORTALITY + 4 * chooser.below(2 * CLASSES);
            put_four(book, at, around(chooser, MOST_MORTALITY));
        }
    }
}

/// The greatest number that passes, one more, or the greatest of all.
fn around(chooser: &mut Chooser, most: u32) -> u32 {
    chooser.pick(&[most, most + 1, most + 1, u32::MAX])
}

/// A head or next that leads to any record, to none, or past the last.
fn damage_link(book: &mut [u8], chooser: &mut Chooser) {
    if book.len() < HEADER_SIZE {
        return;
    }
    let held = records_held(book);
    let goal = match chooser.below(4) {
        0 => 0,
        1 => held + 1,
        2 => 65_535,
        _ => chooser.below(held + 1),
    };
    let at = if held == 0 || chooser.percent(40) {
        HEADS + 2 * chooser.below(CHAINS)
    } else {
        record_start(1 + chooser.below(held)) + NEXT
    };
    put_two(book, at, goal as u16);
}

fn damage_record(book: &mut [u8], chooser: &mut Chooser) {
    let held = records_held(book);
    if held == 0 {
        return;
    }
    let start = record_start(1 + chooser.below(held));
    match chooser.below(10) {
        0 => book[start + CODE] = chooser.below(9) as u8,
        1 => book[start + SEX] = chooser.below(3) as u8,
        2 => book[start + chooser.pick(&[SPARE_BYTE, SPARE_BYTES, SPARE_BYTES + 1])] = 1,
        3 => book[start + CLASS] = chooser.pick(&[0, 119, 120, 121, 255]),
        4 => book[start + CLASS] = book[start + CLASS].wrapping_add(1),
        5 => put_two(book, start + NEXT, 0),
        6 => put_four(book, start + COUNT, around(chooser, MOST_COUNT)),
        7 => put_four(book, start + LAPSE, around(chooser, MOST_LAPSE)),
        8 => put_four(book, start + PREMIUM, around(chooser, MOST_PREMIUM)),
        _ => put_four(book, start + CLAIMS, around(chooser, MOST_CLAIMS)),
    }
}
