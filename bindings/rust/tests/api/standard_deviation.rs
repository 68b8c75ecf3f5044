//! One standard deviation of four factors, by figures worked by hand.

use xaropinto::{deviation, Refusal, RiskModel};

/// Differences of -4,214,491,620; -4,155,326,891; 11,355,117,658 and 6,859,000,890.
const BOOK: &[u8] = include_bytes!("../../../../samples/small_insurer.book");

/// The example of `docs/WORKED_EXAMPLES.md`.
const WORKED: RiskModel = RiskModel {
    coefficients: [150_000, 80_000, 100_000, 60_000],
    correlation: [
        [1_000, 0, 250, 0],
        [0, 1_000, 500, 0],
        [250, 500, 1_000, 0],
        [0, 0, 0, 1_000],
    ],
};

fn refused(number: u64) -> Result<u64, Refusal> {
    Err(Refusal { number, place: 0 })
}

#[test]
fn the_worked_example_has_its_deviation() {
    assert_eq!(deviation(BOOK, &WORKED), Ok(86_482));
}

#[test]
fn a_difference_below_zero_is_cut_towards_zero() {
    // -42,144.9 thousand francs are -42,144, times 2.5
    let mut model = WORKED;
    model.coefficients = [1_000_000, 0, 0, 0];
    assert_eq!(deviation(BOOK, &model), Ok(105_360));
}

#[test]
fn a_model_that_breaks_a_rule_is_refused_before_its_factors() {
    let mut model = WORKED;
    model.coefficients[3] = 1_000_000;
    assert_eq!(deviation(BOOK, &model), refused(30));
    model.correlation[1][3] = 1;
    assert_eq!(deviation(BOOK, &model), refused(29));
}

#[test]
fn a_negative_form_is_refused() {
    // factors of -1, -1 and 1: a form of 3,000 - 3,002
    let mut model = WORKED;
    model.coefficients = [10, 15, 4, 0];
    for (i, j, correlation) in [(0, 1, -501), (0, 2, 500), (1, 2, 500)] {
        model.correlation[i][j] = correlation;
        model.correlation[j][i] = correlation;
    }
    assert_eq!(deviation(BOOK, &model), refused(31));
}

#[test]
fn the_book_is_refused_before_the_model() {
    let mut model = WORKED;
    model.coefficients[0] = u64::MAX;
    let refusal = Refusal {
        number: 1,
        place: 1_219,
    };
    assert_eq!(deviation(&BOOK[..1_219], &model), Err(refusal));
}
