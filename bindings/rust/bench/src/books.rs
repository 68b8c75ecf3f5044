//! The books on which all rows are held to agree, and those that are timed.

use std::fs;

use plain::book::{full_book, make_shuffled_book, random_book, Cell, Kind, Values};
use plain::chooser::Chooser;
use plain::layout::{CHAINS, CLASSES, CURVE_YEARS, LAST_CLASS};

const SEED: u64 = 2_021;

const SAMPLES: &str = concat!(env!("CARGO_MANIFEST_DIR"), "/../../../samples");

/// The sample books with their names, accepted or not.
pub fn samples() -> Result<Vec<(String, Vec<u8>)>, String> {
    let in_samples = |trouble| format!("{SAMPLES}: {trouble}");
    let mut books = Vec::new();
    for entry in fs::read_dir(SAMPLES).map_err(in_samples)? {
        let path = entry.map_err(in_samples)?.path();
        if path.extension().is_some_and(|ending| ending == "book") {
            let book = fs::read(&path).map_err(in_samples)?;
            books.push((path.display().to_string(), book));
        }
    }
    Ok(books)
}

/// Books that no one times: numbers anywhere in their ranges, and at their ends.
pub fn untimed() -> Vec<Vec<u8>> {
    let mut chooser = Chooser::new(SEED);
    let mut books: Vec<Vec<u8>> = (0..100).map(|_| random_book(&mut chooser, 60, 6)).collect();
    books.extend([Kind::Anywhere, Kind::AtEnds].map(|kind| full_book(&mut chooser, kind)));
    books
}

/// So many chains of all 121 classes, each record with contracts.
pub fn dense(chains: usize) -> Vec<u8> {
    let mut chooser = Chooser::new(SEED);
    let mut values = tables();
    for cells in &mut values.chains[..chains.min(CHAINS)] {
        *cells = (0..CLASSES)
            .map(|class| cell(class, &mut chooser))
            .collect();
    }
    make_shuffled_book(&values, 0, &mut chooser)
}

/// Premiums from some 300 to 7,000 francs a year, claims that outgrow them, a lapse of 2 to 12
/// percent.
fn cell(class: usize, chooser: &mut Chooser) -> Cell {
    let class = class as u32;
    let premium = 30_000 + 45 * class * class + chooser.up_to(3_000);
    Cell {
        count: 1_600_u32.saturating_sub(class.abs_diff(48).pow(2) / 2) + 1 + chooser.up_to(30),
        lapse: 120_000 - 800 * class + chooser.up_to(4_000),
        premium,
        claims: premium / 100 * (35 + 7 * class / 10 + chooser.up_to(15)),
    }
}

/// Deaths rise by nine percent from class to class and are certain at the last; the curve rises
/// from below zero to two percent.
fn tables() -> Values {
    let mut values = Values {
        cost_rates: [180_000, 210_000, 150_000, 220_000, 120_000],
        ..Values::default()
    };
    for k in 0..CURVE_YEARS {
        values.curve[k] = -6_000 + 530 * k as i32;
    }
    for (rates, first) in values.mortality.iter_mut().zip([30_000_u64, 20_000]) {
        let mut thousandths = first;
        for rate in rates.iter_mut() {
            *rate = (thousandths / 1_000).min(1_000_000) as u32;
            thousandths = thousandths * 109 / 100;
        }
        rates[LAST_CLASS] = 1_000_000;
    }
    values
}
