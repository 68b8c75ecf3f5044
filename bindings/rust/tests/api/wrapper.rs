//! What the wrapper adds to the calls.

use plain::book::{full_book, Kind};
use plain::chooser::Chooser;

#[test]
fn the_library_is_of_the_crates_version() {
    let parts: Vec<u64> = env!("CARGO_PKG_VERSION")
        .split('.')
        .map(|part| part.parse().expect("a part is a number"))
        .collect();
    let number = parts.iter().fold(0, |number, part| 100 * number + part);
    assert_eq!(xaropinto::version(), number);
}

#[test]
fn a_record_is_a_part_of_the_book() {
    let book = full_book(&mut Chooser::new(24), Kind::Anywhere);
    for number in [1, 2, 1_694] {
        let part = xaropinto::record(&book, number).expect("a full book has this record");
        let start = 1_220 + 24 * (number - 1);
        assert!(std::ptr::eq(part, &book[start..start + 24]));
    }
}

#[test]
fn a_refusal_reads_as_the_program_writes_it() {
    let refusal = xaropinto::check(&[0; 1_220]).expect_err("zeros are no book");
    assert_eq!(
        refusal.to_string(),
        "refused 2 0: the edition is 1 or 2; owner: the department that writes the file"
    );
}

#[test]
fn a_listing_has_the_totals() {
    let book = full_book(&mut Chooser::new(8), Kind::Anywhere);
    let reply = xaropinto::totals(&book).expect("a full book is accepted");
    let lines: String = (0..8)
        .map(|setting| format!("{setting} {} {}\n", reply.totals[setting], reply.n))
        .collect();
    let mut out = [7; 512];
    assert_eq!(xaropinto::listing(&book, &mut out), Ok(lines.len()));
    assert_eq!(&out[..lines.len()], lines.as_bytes());
    assert!(out[lines.len()..].iter().all(|byte| *byte == 7));
    let mut exact = vec![7; lines.len()];
    assert_eq!(xaropinto::listing(&book, &mut exact), Ok(lines.len()));
    assert_eq!(exact, lines.as_bytes());
}

/// What Listing is refused with, and whether a buffer of so many bytes is as it was.
fn listing_refused(book: &[u8], bytes: usize) -> (u64, u64, bool) {
    let mut out = vec![7; bytes];
    let refusal = xaropinto::listing(book, &mut out).expect_err("it is refused");
    let as_it_was = out.iter().all(|byte| *byte == 7);
    (refusal.number, refusal.place, as_it_was)
}

#[test]
fn a_refused_listing_leaves_the_buffer() {
    let book = full_book(&mut Chooser::new(8), Kind::Anywhere);
    let mut out = [0; 512];
    let length = xaropinto::listing(&book, &mut out).expect("a full book is accepted");
    assert_eq!(listing_refused(&book, length - 1), (20, 0, true));
    assert_eq!(listing_refused(&book, 0), (20, 0, true));
    assert_eq!(listing_refused(&[0; 1_220], 512), (2, 0, true));
    assert_eq!(listing_refused(&[0; 1_219], 512), (1, 1_219, true));
    assert_eq!(listing_refused(&[0; 1_219], 0), (1, 1_219, true));
}

/// The book on age basis 2 that becomes this one, whose records are all linked.
fn on_basis_2(book: &[u8]) -> Vec<u8> {
    let mut newer = book.to_vec();
    newer[1] = 2;
    for start in (1_220..newer.len()).step_by(24) {
        newer[start + 2] += 1;
    }
    newer
}

#[test]
fn a_book_of_basis_2_becomes_that_of_basis_1() {
    let book = full_book(&mut Chooser::new(121), Kind::Anywhere);
    let mut out = vec![0xa5; book.len() + 7];
    let accepted = xaropinto::convert(&on_basis_2(&book), &mut out);
    assert_eq!(accepted, xaropinto::check(&book));
    assert_eq!(out[..book.len()], book);
    assert_eq!(out[book.len()..], [0xa5; 7]);
}

#[test]
fn a_refused_conversion_leaves_the_buffer() {
    let mut book = on_basis_2(&full_book(&mut Chooser::new(121), Kind::Anywhere));
    let mut short = vec![0xa5; book.len() - 1];
    let refusal = xaropinto::convert(&book, &mut short).expect_err("a byte is missing");
    assert_eq!((refusal.number, refusal.place), (16, 0));
    book[1] = 1;
    let mut out = vec![0xa5; book.len()];
    let refusal = xaropinto::convert(&book, &mut out).expect_err("basis 1 is not converted");
    assert_eq!((refusal.number, refusal.place), (3, 1));
    assert!(short.iter().chain(&out).all(|byte| *byte == 0xa5));
}
