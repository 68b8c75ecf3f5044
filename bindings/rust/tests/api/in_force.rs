//! In force of one cell, compared with the year tables of the plain valuation.

use plain::book::{make_book, make_shuffled_book, Cell, Values};
use plain::chooser::Chooser;
use plain::layout::{code_of_chain, sex_of_chain, CHAINS};
use xaropinto::Refusal;

use crate::replies::plain_group;

const YEARS: usize = 50;
/// What no run has.
const MARK: u64 = u64::MAX;

/// Claims of 10,000,000 in every class and no costs: a cell's outgo is what is in force, in
/// hundreds of billionths.
fn one_cell(chooser: &mut Chooser, chain: usize, length: usize, own: usize) -> Values {
    let mut values = Values::default();
    for rate in values.mortality.iter_mut().flatten() {
        *rate = chooser.up_to(400_000);
    }
    values.chains[chain] = (0..length)
        .map(|_| Cell {
            count: 0,
            lapse: chooser.up_to(100_000),
            premium: 0,
            claims: 10_000_000,
        })
        .collect();
    values.chains[chain][own].count = 1 + chooser.up_to(99_999);
    values
}

fn run_of(book: &[u8], setting: usize, chain: usize, class: usize) -> [u64; YEARS] {
    let mut memory = [MARK; YEARS + 10];
    let (code, sex) = (code_of_chain(chain) as usize, sex_of_chain(chain));
    xaropinto::in_force(book, setting, code, sex, class, &mut memory).expect("the chain has it");
    assert!(memory[YEARS..].iter().all(|number| *number == MARK));
    memory[..YEARS].try_into().expect("fifty numbers")
}

fn assert_refused(book: &[u8], asked: [usize; 4], numbers: usize, number: u64, place: u64) {
    let mut memory = vec![MARK; numbers];
    let [setting, code, sex, class] = asked;
    let reply = xaropinto::in_force(book, setting, code, sex, class, &mut memory);
    assert_eq!(reply, Err(Refusal { number, place }));
    assert!(memory.iter().all(|number| *number == MARK));
}

#[test]
fn a_run_is_that_of_the_plain_valuation() {
    let mut chooser = Chooser::new(209);
    for turn in 0..8 * CHAINS {
        let (chain, setting) = (turn % CHAINS, turn % 7);
        let length = 1 + chooser.below(80);
        let own = chooser.below(length);
        let values = one_cell(&mut chooser, chain, length, own);
        let book = make_shuffled_book(&values, 2, &mut chooser);
        let run = run_of(&book, setting, chain, 121 - length + own);
        let group = (code_of_chain(chain) as usize).saturating_sub(2).max(1);
        let (reply, table) = plain_group(&book, setting, group, 200);
        assert!(reply.is_ok());
        for (number, year) in run.iter().zip(table.chunks(4)) {
            assert_eq!(number / 100, year[1]);
        }
    }
}

#[test]
fn a_cell_that_is_refused_leaves_the_numbers() {
    let book = make_book(&one_cell(&mut Chooser::new(1), 6, 3, 0));
    assert_refused(&book, [8, 0, 2, 121], 0, 14, 0);
    assert_refused(&[], [0, 8, 0, 118], 50, 25, 0);
    assert_refused(&[], [0, 4, 2, 118], 50, 25, 0);
    assert_refused(&[], [0, 4, 0, 118], 49, 25, 0);
    assert_refused(&[0; 1_220], [0, 4, 0, 121], 50, 2, 0);
    assert_refused(&book, [0, 4, 0, 117], 50, 26, 0);
    assert_refused(&book, [0, 4, 0, 121], 50, 26, 0);
    assert_refused(&book, [0, 4, 1, 118], 50, 26, 0);
}
