//! The eight settings and their weights, in thousandths.

use crate::layout::{EDITION, PERCENTAGES};

pub const SETTINGS: usize = 8;
/// A shift that ends holds for k = 0 to 4.
pub const SHIFTED_YEARS: usize = 5;

/// Where there are two, the first is for the shifted years and the second for the later ones.
pub struct Weights {
    /// for each percent of the mortality percentage
    pub mortality: [u64; 2],
    /// a shift of lapse does not end
    pub lapse: u64,
    pub costs: [u64; 2],
    pub claims: [u64; 2],
}

const BASE: Weights = Weights {
    mortality: [10, 10],
    lapse: 1_000,
    costs: [1_000, 1_000],
    claims: [1_000, 1_000],
};

pub const WEIGHTS: [Weights; SETTINGS] = [
    BASE,
    Weights {
        mortality: [12, 10],
        ..BASE
    },
    Weights {
        mortality: [8, 10],
        ..BASE
    },
    Weights {
        lapse: 1_300,
        ..BASE
    },
    Weights { lapse: 700, ..BASE },
    Weights {
        costs: [1_200, 1_000],
        ..BASE
    },
    Weights {
        costs: [800, 1_000],
        ..BASE
    },
    Weights {
        claims: [1_050, 1_000],
        ..BASE
    },
];

/// The mortality percentage of a sex, men or women: edition 2 of a book carries its own.
pub fn percentage(book: &[u8], sex: usize) -> u64 {
    if book[EDITION] == 2 {
        return book[PERCENTAGES + sex] as u64;
    }
    [87, 86][sex]
}

/// Which of two weights holds in year k.
pub fn later(k: usize) -> usize {
    (k >= SHIFTED_YEARS) as usize
}
