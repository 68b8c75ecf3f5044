//! Cost rates out of accounts, by figures worked by hand.

use xaropinto::{cost_rates, Accounts, Refusal};

/// The example of `docs/WORKED_EXAMPLES.md`: PG5 is empty.
const WORKED: Accounts = Accounts {
    expenses: [2_400_001, 2_520_000, 2_480_010],
    stock: [
        [12_000, 3_000, 20_000, 5_000, 0],
        [12_400, 2_900, 20_500, 5_100, 0],
        [12_900, 2_850, 21_000, 5_250, 0],
    ],
    claims: [
        [14_400_000, 2_100_000, 6_000_000, 1_500_000, 0],
        [14_950_000, 2_050_000, 6_300_000, 1_600_000, 0],
        [15_600_000, 1_990_000, 6_550_000, 1_720_000, 0],
    ],
    premium: [
        [18_000_000, 3_000_000, 8_000_000, 2_000_000, 0],
        [18_700_000, 2_950_000, 8_300_000, 2_100_000, 0],
        [19_500_000, 2_900_000, 8_700_000, 2_250_000, 0],
    ],
};

fn refused(number: u64) -> Result<[u64; 5], Refusal> {
    Err(Refusal { number, place: 0 })
}

#[test]
fn the_worked_example_has_its_rates() {
    assert_eq!(
        cost_rates(&WORKED),
        Ok([56_611, 60_916, 105_881, 104_948, 0])
    );
}

#[test]
fn a_figure_above_its_limit_is_refused_before_all_else() {
    let mut accounts = WORKED;
    accounts.stock[2][4] = 10_000_001;
    assert_eq!(cost_rates(&accounts), refused(17));
    accounts.claims[0] = [0; 5];
    assert_eq!(cost_rates(&accounts), refused(17));
}

#[test]
fn a_group_with_claims_needs_premium_in_every_year() {
    let mut accounts = WORKED;
    accounts.claims[1][4] = 1;
    assert_eq!(cost_rates(&accounts), refused(18));
}

#[test]
fn a_rate_above_one_is_refused() {
    let mut accounts = WORKED;
    for year in 0..3 {
        accounts.premium[year][1] = 100_000;
    }
    assert_eq!(cost_rates(&accounts), refused(19));
}
