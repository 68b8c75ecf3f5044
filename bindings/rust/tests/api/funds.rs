//! Two funds on the same tables, compared with the plain valuation of each joined book.

use plain::book::{full_book, random_book, Kind};
use plain::chooser::Chooser;
use plain::damage::damage;
use plain::valuation::totals;
use xaropinto::funds;

const FRONT: usize = 56;
const HEADER: usize = 1_220;
const MARK: i64 = i64::MIN + 7;

/// A fund's verdict, and its half of the numbers.
type Outcome = (Result<u64, (u64, u64)>, [i64; 8]);

fn table_of(book: &[u8]) -> &[u8] {
    &book[FRONT..HEADER]
}

/// A book's fund file; a book that ends before its records leaves what it has of the first bytes.
fn fund_of(book: &[u8]) -> Vec<u8> {
    let header = &book[..FRONT.min(book.len())];
    [header, book.get(HEADER..).unwrap_or(&[])].concat()
}

/// Both outcomes by the archive; numbers from 16 on must stay.
fn both(table: &[u8], first: &[u8], second: &[u8]) -> [Outcome; 2] {
    let mut numbers = [MARK; 20];
    let [one, other] = funds(table, first, second, &mut numbers).map(|reply| {
        reply
            .map(|accepted| accepted.n)
            .map_err(|refusal| (refusal.number, refusal.place))
    });
    assert_eq!(numbers[16..], [MARK; 4]);
    let half = |start: usize| std::array::from_fn(|at| numbers[start + at]);
    [(one, half(0)), (other, half(8))]
}

/// A fund's outcome by the plain valuation, on a table file of the right length.
fn plain_outcome(table: &[u8], fund: &[u8]) -> Outcome {
    if fund.len() < FRONT {
        return (Err((1, fund.len() as u64)), [MARK; 8]);
    }
    let joined = [&fund[..FRONT], table, &fund[FRONT..]].concat();
    match totals(&joined) {
        Ok(reply) => (Ok(reply.n), reply.totals),
        Err(refusal) => (Err(refusal), [MARK; 8]),
    }
}

/// Sound or damaged, now and then cut short or longer than a book's.
fn fund_file(chooser: &mut Chooser) -> Vec<u8> {
    let mut book = random_book(chooser, 4, 6);
    if chooser.percent(50) {
        damage(&mut book, chooser);
    }
    let mut fund = fund_of(&book);
    if chooser.percent(10) {
        fund.resize(chooser.pick(&[0, 55, 56, 40_712, 40_713, 90_000]), 0);
    }
    fund
}

#[test]
fn replies_and_halves_are_those_of_the_joined_books() {
    let mut chooser = Chooser::new(208);
    let mut accepted = [0; 2];
    for number in 0..1_500 {
        let book = random_book(&mut chooser, 2, 1);
        let files = [fund_file(&mut chooser), fund_file(&mut chooser)];
        let given = both(table_of(&book), &files[0], &files[1]);
        for side in 0..2 {
            let due = plain_outcome(table_of(&book), &files[side]);
            assert_eq!(given[side], due, "pair {number}, fund {side}");
            accepted[side] += usize::from(due.0.is_ok());
        }
    }
    assert!(accepted.iter().all(|times| *times > 300), "{accepted:?}");
}

#[test]
fn neither_fund_bears_on_the_other() {
    let mut chooser = Chooser::new(1_164);
    for number in 0..1_500 {
        let book = random_book(&mut chooser, 2, 1);
        let table = table_of(&book);
        let [first, second, other] = [0; 3].map(|_| fund_file(&mut chooser));
        let given = both(table, &first, &second);
        assert_eq!(both(table, &first, &other)[0], given[0], "pair {number}");
        assert_eq!(both(table, &other, &second)[1], given[1], "pair {number}");
    }
}

#[test]
fn the_longest_fund_file_is_valued_on_either_side() {
    let book = full_book(&mut Chooser::new(40_712), Kind::Anywhere);
    let fund = fund_of(&book);
    let due = plain_outcome(table_of(&book), &fund);
    assert_eq!((fund.len(), due.0.is_ok()), (40_712, true));
    assert_eq!(both(table_of(&book), &fund, &[])[0], due);
    assert_eq!(both(table_of(&book), &[], &fund)[1], due);
}

#[test]
fn a_short_buffer_comes_before_the_table_file_and_both_before_the_funds() {
    let mut numbers = [MARK; 16];
    let refused = |number| Err(xaropinto::Refusal { number, place: 0 });
    let table = [0; 1_163];
    assert_eq!(
        funds(&table, &[], &[], &mut numbers[..15]),
        [refused(16); 2]
    );
    assert_eq!(funds(&table, &[], &[], &mut numbers), [refused(24); 2]);
    assert_eq!(numbers, [MARK; 16]);
}
