//! The spread of yearly claims, by figures worked by hand; the last of them with Rust's own
//! doubles.

use xaropinto::{spread, Refusal, Spread, Summary};

fn summary(five: [u64; 5]) -> Summary {
    let [lowest, first_quartile, median, third_quartile, highest] = five;
    Summary {
        lowest,
        first_quartile,
        median,
        third_quartile,
        highest,
    }
}

/// The example of `docs/WORKED_EXAMPLES.md`.
const WORKED: [u64; 5] = [152_340, 158_910, 163_275, 169_480, 181_205];
const EVEN: [u64; 5] = [0, 100, 200, 300, 400];
const LEVEL: [u64; 5] = [7; 5];

fn refused(number: u64) -> Result<Spread, Refusal> {
    Err(Refusal { number, place: 0 })
}

#[test]
fn the_worked_example_has_its_spread() {
    assert_eq!(
        spread(&summary(WORKED), 2.847, 1.119),
        Ok(Spread::Coefficient {
            mean: 164_609.375,
            coefficient: 0.05948833839363393
        })
    );
}

#[test]
fn five_even_steps_have_an_exact_coefficient() {
    assert_eq!(
        spread(&summary(EVEN), 2.0, 4.0),
        Ok(Spread::Coefficient {
            mean: 200.0,
            coefficient: 0.625
        })
    );
}

#[test]
fn level_claims_have_a_mean_alone() {
    assert_eq!(
        spread(&summary(LEVEL), 1_000.0, 1.0 / 1_024.0),
        Ok(Spread::Level { mean: 7.0 })
    );
}

#[test]
fn claims_are_refused_before_factors() {
    assert_eq!(spread(&summary([0; 5]), f64::NAN, 4.0), refused(27));
    assert_eq!(
        spread(&summary([0, 100, 200, 300, 299]), 2.0, 4.0),
        refused(27)
    );
    assert_eq!(
        spread(&summary([0, 0, 0, 0, 10_000_001]), 2.0, 4.0),
        refused(27)
    );
}

#[test]
fn factors_are_refused_before_level() {
    let above = f64::from_bits(1_000f64.to_bits() + 1);
    let below = f64::from_bits((1.0f64 / 1_024.0).to_bits() - 1);
    for factor in [f64::NAN, f64::INFINITY, -0.0, above, below] {
        assert_eq!(spread(&summary(LEVEL), factor, 4.0), refused(28));
        assert_eq!(spread(&summary(EVEN), 2.0, factor), refused(28));
    }
}

#[test]
fn each_operation_rounds_once() {
    let [a, q1, m, q3, b] = WORKED.map(|claims| claims as f64);
    for step in 1..1_000u32 {
        let (xi, eta) = (f64::from(step) / 3.0, 1_000.0 / f64::from(step));
        let mean = (a + 2.0 * q1 + 2.0 * m + 2.0 * q3 + b) / 8.0;
        let deviation = ((b - a) / xi + (q3 - q1) / eta) * 0.5;
        assert_eq!(
            spread(&summary(WORKED), xi, eta),
            Ok(Spread::Coefficient {
                mean,
                coefficient: deviation / mean
            })
        );
    }
}
