//! The paper's trial figures, listing and traps, asked of both sides.

use plain::book::{make_book, Cell, Values};
use plain::layout::{CURVE_YEARS, HEADER_SIZE};
use plain::valuation::{Group, Totals};

use crate::replies::{agreed_check, agreed_group, agreed_totals};

const PG1A_MEN: usize = 0;
const PG1B_WOMEN: usize = 3;
const PG2_MEN: usize = 6;

/// One contract that meets these (premium, claims) year by year, and those of the last from then
/// on.
fn one_contract(amounts: &[(u32, u32)], lapse: u32) -> Vec<Cell> {
    let mut cells: Vec<Cell> = amounts
        .iter()
        .map(|&(premium, claims)| Cell {
            count: 0,
            lapse,
            premium,
            claims,
        })
        .collect();
    cells[0].count = 1;
    cells
}

/// Values with one man of PG2.
fn one_man(amounts: &[(u32, u32)], lapse: u32) -> Values {
    let mut values = Values::default();
    values.chains[PG2_MEN] = one_contract(amounts, lapse);
    values
}

/// The four numbers of year k of a product group.
fn year(values: &Values, setting: usize, group: usize, k: usize) -> [u64; 4] {
    let book = make_book(values);
    let (reply, table) = agreed_group(&book, setting, group, 200, "trial book");
    assert!(reply.is_ok());
    table[4 * k..4 * k + 4].try_into().expect("four numbers")
}

/// What is in force of one man in year k, in hundreds of billionths.
fn in_force(mortality: u32, lapse: u32, setting: usize, k: usize) -> u64 {
    let mut values = one_man(&[(10_000_000, 10_000_000); 10], lapse);
    values.mortality = [[mortality; 121]; 2];
    let [premium, ..] = year(&values, setting, 2, k);
    premium
}

fn one_record_book() -> Vec<u8> {
    let mut values = Values::default();
    values.cost_rates[1] = 100_000;
    values.chains[PG2_MEN] = vec![Cell {
        count: 10,
        lapse: 0,
        premium: 100_000,
        claims: 80_000,
    }];
    make_book(&values)
}

#[test]
fn the_listing_of_one_record() {
    let book = one_record_book();
    assert_eq!(agreed_check(&book, "one record"), Ok(1));
    let due = Totals {
        n: 1,
        totals: [
            -5_000_000, -5_000_000, -5_000_000, -5_000_000, -5_000_000, -4_900_000, -5_100_000,
            -4_800_000,
        ],
        differences: [0, 0, 200_000, 200_000],
    };
    assert_eq!(agreed_totals(&book, "one record"), Ok(due));
    for (setting, liability) in due.totals.into_iter().enumerate() {
        let (reply, table) = agreed_group(&book, setting, 2, 200, "one record");
        assert_eq!(reply, Ok(Group { liability, n: 1 }));
        // From the sixth year on the cap, ten ninths of 900,000, is just the premium.
        for year in table.chunks(4).skip(5) {
            assert_eq!(year, [1_000_000, 900_000, 1_000_000, 900_000]);
        }
    }
}

#[test]
fn the_very_old_stay_at_class_120() {
    let mut values = Values::default();
    values.mortality[0][119] = 500_000;
    values.mortality[0][120] = 100_000;
    values.chains[PG2_MEN] = [(1, 200_000, 0), (0, 50_000, 10_000_000)]
        .map(|(count, lapse, claims)| Cell {
            count,
            lapse,
            premium: 0,
            claims,
        })
        .to_vec();
    // 0.565 times 0.8 of a contract; then each year 0.913 times 0.95 of it.
    let claims = [0, 1, 2, 3, 49].map(|k| year(&values, 0, 2, k)[1]);
    assert_eq!(claims, [0, 4_520_000, 3_920_422, 3_400_378, 4_880]);
}

#[test]
fn t1_and_t2_discounting_rounds_down_at_each_step() {
    let mut falling = one_man(&[(0, 99); 2], 0);
    falling.curve[0] = -10_000;
    assert_eq!(year(&falling, 0, 2, 1), [0, 99, 0, 100]);
    let mut rising = one_man(&[(0, 100); 3], 0);
    rising.curve = [200_000; CURVE_YEARS];
    rising.curve[1] = 10_000;
    assert_eq!(year(&rising, 0, 2, 2), [0, 100, 0, 98]);
}

#[test]
fn t3_to_t6_cap_starts_in_the_sixth_year() {
    let premium = |amounts, k| year(&one_man(&[amounts; 8], 0), 0, 2, k)[0];
    assert_eq!(premium((1_001, 900), 5), 1_000);
    assert_eq!(premium((1_001, 900), 4), 1_001);
    assert_eq!(premium((1_000, 899), 5), 998);
    assert_eq!(premium((1_001, 0), 5), 0);
}

#[test]
fn t7_to_t9_mortality_is_weighted_and_cut_to_one() {
    assert_eq!(in_force(1_000_000, 0, 0, 1), 1_300_000);
    assert_eq!(in_force(1_000_000, 0, 1, 1), 0);
    assert_eq!(in_force(1_000_000, 0, 2, 1), 3_040_000);
}

#[test]
fn t10_lapse_rounds_down_each_year() {
    assert_eq!(in_force(0, 333_333, 0, 1), 6_666_670);
    assert_eq!(in_force(0, 333_333, 0, 2), 4_444_448);
}

#[test]
fn t11_and_t12_refusals_of_the_desk_that_writes_the_file() {
    assert_eq!(agreed_check(&[0; HEADER_SIZE], "T11"), Err((2, 0)));
    assert_eq!(agreed_check(&[0; HEADER_SIZE - 1], "T12"), Err((1, 1_219)));
}

#[test]
fn rate_200000_passes_and_200001_is_refused() {
    let mut values = Values::default();
    values.curve[48] = 200_000;
    assert_eq!(agreed_check(&make_book(&values), "200,000"), Ok(0));
    values.curve[48] = 200_001;
    assert_eq!(
        agreed_check(&make_book(&values), "200,001"),
        Err((7, 56 + 4 * 48))
    );
}

#[test]
fn no_records_give_no_figures() {
    let book = make_book(&Values::default());
    let nothing = Totals {
        n: 0,
        totals: [0; 8],
        differences: [0; 4],
    };
    assert_eq!(agreed_totals(&book, "no records"), Ok(nothing));
    for group in 1..=5 {
        let (reply, table) = agreed_group(&book, 0, group, 200, "no records");
        assert_eq!(reply, Ok(Group { liability: 0, n: 0 }));
        assert_eq!(table, [0; 200]);
    }
}

#[test]
fn cap_is_on_pg1_as_a_whole() {
    let mut values = Values::default();
    values.chains[PG1A_MEN] = one_contract(&[(1_200, 900); 8], 0);
    values.chains[PG1B_WOMEN] = one_contract(&[(700, 900); 8], 0);
    assert_eq!(year(&values, 0, 1, 5), [1_900, 1_800, 1_900, 1_800]);
}

#[test]
fn costs_are_of_the_premium_before_the_cap() {
    let mut values = one_man(&[(1_300, 900); 8], 0);
    values.cost_rates[1] = 150_000;
    assert_eq!(year(&values, 0, 2, 5), [1_216, 1_095, 1_216, 1_095]);
}

#[test]
fn lapse_is_of_those_who_live() {
    assert_eq!(in_force(500_000, 100_000, 0, 1), 5_085_000);
}

#[test]
fn lapse_shift_lasts() {
    // 0.87 to the power of 6 and 0.9 to the power of 6, of 10,000,000.
    let claims_of = |setting| year(&one_man(&[(0, 10_000_000); 8], 100_000), setting, 2, 6)[1];
    assert_eq!(claims_of(3), 4_336_262);
    assert_eq!(claims_of(0), 5_314_410);
}
