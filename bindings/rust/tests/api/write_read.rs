//! Books read and written again, and written and read back.

use plain::book::{full_book, make_book, Cell, Kind, Values};
use plain::chooser::Chooser;
use xaropinto::Refusal;

const MOST_RECORDS: usize = 1_694;
const MARK: u64 = 7;

/// A book's values and its four lists, as long as the book has records.
type Contents = (xaropinto::Values, [Vec<u64>; 4]);

fn read(book: &[u8]) -> Contents {
    let records = (book.len() - 1_220) / 24;
    let mut lists: [Vec<u64>; 4] = std::array::from_fn(|_| vec![MARK; records]);
    let [counts, lapses, premiums, claims] = &mut lists;
    let values = xaropinto::read(book, counts, lapses, premiums, claims).expect("it is a book");
    (values, lists)
}

fn write(contents: &Contents, out: &mut [u8]) -> Result<usize, Refusal> {
    let (values, [counts, lapses, premiums, claims]) = contents;
    xaropinto::write(values, counts, lapses, premiums, claims, out)
}

/// The paper's book: ten contracts of PG2 men at class 120.
fn one_record() -> Contents {
    let mut first_classes = [121; 14];
    first_classes[6] = 120;
    let values = xaropinto::Values {
        edition: 1,
        percentages: [0, 0],
        year: 2021,
        cost_rates: [0, 100_000, 0, 0, 0],
        curve: [0; 49],
        mortality: [0; 242],
        first_classes,
    };
    (values, [vec![10], vec![0], vec![100_000], vec![80_000]])
}

#[test]
fn the_papers_book_is_written_and_read_back() {
    let mut due = Values::default();
    due.cost_rates[1] = 100_000;
    due.chains[6] = vec![Cell {
        count: 10,
        lapse: 0,
        premium: 100_000,
        claims: 80_000,
    }];
    let mut out = [0xA5; 1_300];
    assert_eq!(write(&one_record(), &mut out), Ok(1_244));
    assert_eq!(out[..1_244], make_book(&due)[..]);
    assert!(out[1_244..].iter().all(|&byte| byte == 0xA5));
    assert_eq!(read(&out[..1_244]), one_record());
}

#[test]
fn percentages_of_edition_2_are_written_and_read_back() {
    let mut contents = one_record();
    contents.0.edition = 2;
    contents.0.percentages = [100, 1];
    let mut out = [0; 1_244];
    assert_eq!(write(&contents, &mut out), Ok(1_244));
    assert_eq!((out[0], out[6], out[7]), (2, 100, 1));
    assert_eq!(read(&out), contents);
}

#[test]
fn a_book_in_any_order_is_written_in_chain_order_with_the_same_contents() {
    for kind in [Kind::Anywhere, Kind::AtEnds] {
        let contents = read(&full_book(&mut Chooser::new(205), kind));
        let mut out = vec![0; 41_876];
        assert_eq!(write(&contents, &mut out), Ok(41_876));
        assert_eq!(read(&out), contents);
        let held = contents.1[0].iter().filter(|&&count| count != 0).count();
        assert_eq!(
            xaropinto::check(&out).map(|accepted| accepted.n),
            Ok(held as u64)
        );
    }
}

#[test]
fn what_is_refused_is_not_written() {
    let refused = |number| Err(Refusal { number, place: 0 });
    let mut out = [0xA5; 1_244];
    let mut contents = one_record();
    assert_eq!(write(&contents, &mut out[..1_243]), refused(22));
    contents.0.curve[48] = -10_001;
    assert_eq!(write(&contents, &mut out), refused(7));
    contents.0.edition = 2;
    contents.0.percentages = [100, 101];
    assert_eq!(write(&contents, &mut out), refused(23));
    contents.0.edition = 1;
    assert_eq!(write(&contents, &mut out), refused(4));
    contents.0.percentages = [0, 0];
    contents.0.year = 65_536 + 2021;
    assert_eq!(write(&contents, &mut out), refused(4));
    contents.0.edition = 256 + 1;
    assert_eq!(write(&contents, &mut out), refused(2));
    contents.1[3].push(0);
    assert_eq!(write(&contents, &mut out), refused(22));
    contents.0.first_classes[0] = 122;
    assert_eq!(write(&contents, &mut out), refused(11));
    assert!(out.iter().all(|&byte| byte == 0xA5));
}

#[test]
fn a_list_that_is_too_short_is_not_filled() {
    let book = full_book(&mut Chooser::new(206), Kind::AtEnds);
    let mut lists: [Vec<u64>; 4] = std::array::from_fn(|_| vec![MARK; MOST_RECORDS]);
    let [counts, lapses, premiums, claims] = &mut lists;
    let reply = xaropinto::read(&book, counts, lapses, premiums, &mut claims[1..]);
    assert_eq!(
        reply.map_err(|refusal| (refusal.number, refusal.place)),
        Err((22, 0))
    );
    assert!(lists.iter().flatten().all(|&number| number == MARK));
}
