//! The year report, compared with the year tables of the plain valuation.

use plain::book::{full_book, make_book, random_book, Kind, Values};
use plain::chooser::Chooser;
use plain::report::report_text;
use xaropinto::Refusal;

const MOST_REPORT_BYTES: usize = 9_525;
/// What no report has.
const MARK: u8 = 0xA5;

/// The length given is the report's length; a buffer of as many bytes takes it, one of a byte more
/// too, and one of a byte less is refused. The buffer stands in a longer memory.
fn assert_report(book: &[u8], setting: usize) {
    let due = report_text(book, setting).expect("the book is accepted");
    assert_eq!(xaropinto::report_room(book, setting), Ok(due.len()));
    assert!(due.len() <= MOST_REPORT_BYTES);
    for bytes in [due.len(), due.len() + 1] {
        let mut memory = vec![MARK; MOST_REPORT_BYTES + 2];
        let length = xaropinto::report(book, setting, &mut memory[..bytes])
            .expect("the buffer is long enough");
        assert_eq!(length, due.len());
        assert!(memory.starts_with(due.as_bytes()));
        assert!(memory[length..].iter().all(|byte| *byte == MARK));
    }
    assert_refused(book, setting, due.len() - 1, 20, 0);
}

fn assert_refused(book: &[u8], setting: usize, bytes: usize, number: u64, place: u64) {
    let mut memory = vec![MARK; bytes];
    let refusal = Refusal { number, place };
    assert_eq!(xaropinto::report(book, setting, &mut memory), Err(refusal));
    assert!(memory.iter().all(|byte| *byte == MARK));
}

#[test]
fn a_report_has_the_years_of_all_groups() {
    let mut chooser = Chooser::new(202);
    for setting in 0..8 {
        assert_report(&random_book(&mut chooser, 30, 14), setting);
    }
    assert_report(&full_book(&mut chooser, Kind::Anywhere), 3);
    assert_report(&full_book(&mut chooser, Kind::AtEnds), 0);
}

#[test]
fn a_report_that_is_refused_leaves_the_buffer() {
    let book = make_book(&Values::default());
    assert_eq!(xaropinto::report_room(&book, 0), Ok(2_225));
    assert_refused(&book, 0, 2_224, 20, 0);
    assert_refused(&book, 8, 0, 14, 0);
    assert_refused(&[0; 1_220], 0, 0, 2, 0);
    assert_eq!(
        xaropinto::report_room(&[0; 1_219], 7),
        Err(Refusal {
            number: 1,
            place: 1_219
        })
    );
}
