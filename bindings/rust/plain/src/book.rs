//! The book maker: the bytes of a book from its values, and random values.

use crate::chooser::Chooser;
use crate::layout::*;

/// What the record of one class holds.
#[derive(Clone, Copy, Debug, Default)]
pub struct Cell {
    pub count: u32,
    pub lapse: u32,
    pub premium: u32,
    pub claims: u32,
}

/// All that a book says. A chain's cells are those of rising classes, the last of class 120.
#[derive(Clone, Debug)]
pub struct Values {
    pub edition: u8,
    /// of men and women; zeros in edition 1
    pub percentages: [u8; 2],
    pub sst_year: u16,
    pub cost_rates: [u32; PRODUCT_GROUPS],
    pub curve: [i32; CURVE_YEARS],
    pub mortality: [[u32; CLASSES]; 2],
    pub chains: [Vec<Cell>; CHAINS],
}

impl Default for Values {
    fn default() -> Values {
        Values {
            edition: 1,
            percentages: [0, 0],
            sst_year: 2021,
            cost_rates: [0; PRODUCT_GROUPS],
            curve: [0; CURVE_YEARS],
            mortality: [[0; CLASSES]; 2],
            chains: Default::default(),
        }
    }
}

impl Values {
    pub fn cells(&self) -> usize {
        self.chains.iter().map(Vec::len).sum()
    }
}

/// The book of these values with its records in chain order.
pub fn make_book(values: &Values) -> Vec<u8> {
    let numbers: Vec<usize> = (1..=values.cells()).collect();
    let mut book = vec![0; record_start(values.cells() + 1)];
    put_values(&mut book, values, &numbers);
    book
}

/// The same in no order, with so many unlinked records of random bytes among them.
pub fn make_shuffled_book(values: &Values, unlinked: usize, chooser: &mut Chooser) -> Vec<u8> {
    let mut numbers: Vec<usize> = (1..=values.cells() + unlinked).collect();
    chooser.shuffle(&mut numbers);
    let mut book = vec![0; record_start(numbers.len() + 1)];
    chooser.fill(&mut book[HEADER_SIZE..]);
    put_values(&mut book, values, &numbers);
    book
}

pub fn put_two(book: &mut [u8], at: usize, number: u16) {
    book[at..at + 2].copy_from_slice(&number.to_le_bytes());
}

pub fn put_four(book: &mut [u8], at: usize, number: u32) {
    book[at..at + 4].copy_from_slice(&number.to_le_bytes());
}

/// Writes the header and the linked records; the first of `numbers` are theirs, in chain order.
fn put_values(book: &mut [u8], values: &Values, numbers: &[usize]) {
    put_header(book, values);
    put_two(book, RECORD_COUNT, numbers.len() as u16);
    let mut numbers = numbers.iter();
    for (chain, cells) in values.chains.iter().enumerate() {
        let mut link = HEADS + 2 * chain;
        for (class, cell) in (CLASSES - cells.len()..).zip(cells) {
            let number = *numbers.next().expect("every cell has a number");
            put_two(book, link, number as u16);
            put_record(book, number, chain, class, cell);
            link = record_start(number) + NEXT;
        }
    }
}

fn put_header(book: &mut [u8], values: &Values) {
    book[EDITION] = values.edition;
    book[PERCENTAGES..PERCENTAGES + 2].copy_from_slice(&values.percentages);
    book[AGE_BASIS] = 1;
    put_two(book, SST_YEAR, values.sst_year);
    for (step, rate) in values.cost_rates.iter().enumerate() {
        put_four(book, COST_RATES + 4 * step, *rate);
    }
    for (step, rate) in values.curve.iter().enumerate() {
        put_four(book, CURVE + 4 * step, *rate as u32);
    }
    for (step, rate) in values.mortality.iter().flatten().enumerate() {
        put_four(book, MORTALITY + 4 * step, *rate);
    }
}

/// A record with no next.
fn put_record(book: &mut [u8], number: usize, chain: usize, class: usize, cell: &Cell) {
    let start = record_start(number);
    book[start..start + RECORD_SIZE].fill(0);
    book[start + CODE] = code_of_chain(chain);
    book[start + SEX] = sex_of_chain(chain) as u8;
    book[start + CLASS] = class as u8;
    put_four(book, start + COUNT, cell.count);
    put_four(book, start + LAPSE, cell.lapse);
    put_four(book, start + PREMIUM, cell.premium);
    put_four(book, start + CLAIMS, cell.claims);
}

/// How numbers are drawn from their ranges.
#[derive(Clone, Copy)]
pub enum Kind {
    /// as an insurer might report them; some cells have no contracts
    Believable,
    /// anywhere
    Anywhere,
    /// at one end or the other
    AtEnds,
}

/// A random book of short or long chains, in chain order or not, with or without unlinked records.
pub fn random_book(chooser: &mut Chooser, longest_chain: usize, most_chains: usize) -> Vec<u8> {
    let kind = chooser.pick(&[Kind::Believable, Kind::Anywhere, Kind::AtEnds]);
    let mut values = random_tables(chooser, kind);
    for _ in 0..chooser.below(most_chains + 1) {
        let length = 1 + chooser.below(longest_chain);
        let chain = chooser.below(CHAINS);
        values.chains[chain] = (0..length).map(|_| random_cell(chooser, kind)).collect();
    }
    if chooser.percent(40) {
        return make_book(&values);
    }
    let free = MOST_RECORDS - values.cells();
    let unlinked = chooser.pick(&[0, 1, 5]).min(free);
    make_shuffled_book(&values, unlinked, chooser)
}

/// All 14 chains from class 0, in no order.
pub fn full_book(chooser: &mut Chooser, kind: Kind) -> Vec<u8> {
    let mut values = random_tables(chooser, kind);
    for cells in &mut values.chains {
        *cells = (0..CLASSES).map(|_| random_cell(chooser, kind)).collect();
    }
    make_shuffled_book(&values, 0, chooser)
}

fn random_cell(chooser: &mut Chooser, kind: Kind) -> Cell {
    match kind {
        Kind::Believable => Cell {
            count: chooser.up_to(4_000).saturating_sub(800),
            lapse: chooser.up_to(150_000),
            premium: 10_000 + chooser.up_to(800_000),
            claims: 10_000 + chooser.up_to(800_000),
        },
        Kind::Anywhere => Cell {
            count: chooser.up_to(MOST_COUNT),
            lapse: chooser.up_to(MOST_LAPSE),
            premium: chooser.up_to(MOST_PREMIUM),
            claims: chooser.up_to(MOST_CLAIMS),
        },
        Kind::AtEnds => Cell {
            count: chooser.pick(&[0, MOST_COUNT]),
            lapse: chooser.pick(&[0, 0, MOST_LAPSE]),
            premium: chooser.pick(&[0, MOST_PREMIUM]),
            claims: chooser.pick(&[0, MOST_CLAIMS]),
        },
    }
}

/// Values with no chain.
fn random_tables(chooser: &mut Chooser, kind: Kind) -> Values {
    let mut values = Values {
        sst_year: chooser.between(2017, 2100) as u16,
        ..Values::default()
    };
    if chooser.percent(60) {
        values.edition = 2;
        values.percentages = [87, 86].map(|usual| match kind {
            Kind::Believable => usual - 3 + chooser.up_to(6) as u8,
            Kind::Anywhere => chooser.between(1, MOST_PERCENTAGE as i64) as u8,
            Kind::AtEnds => chooser.pick(&[1, MOST_PERCENTAGE]),
        });
    }
    for rate in &mut values.cost_rates {
        *rate = match kind {
            Kind::Believable => 50_000 + chooser.up_to(200_000),
            Kind::Anywhere => chooser.up_to(MOST_COST_RATE),
            Kind::AtEnds => chooser.pick(&[0, MOST_COST_RATE]),
        };
    }
    for rate in &mut values.curve {
        *rate = match kind {
            Kind::Believable => chooser.between(-9_000, 35_000) as i32,
            Kind::Anywhere => chooser.between(-10_000, 200_000) as i32,
            Kind::AtEnds => chooser.pick(&[LEAST_CURVE_RATE, MOST_CURVE_RATE]),
        };
    }
    for rates in &mut values.mortality {
        for (class, rate) in rates.iter_mut().enumerate() {
            *rate = match kind {
                Kind::Believable => (class as u32).pow(3) / 2 + chooser.up_to(50),
                Kind::Anywhere => chooser.up_to(MOST_MORTALITY),
                Kind::AtEnds => chooser.pick(&[0, 0, MOST_MORTALITY]),
            };
        }
    }
    values
}
