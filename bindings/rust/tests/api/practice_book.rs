//! Practice books from a start number, field by field.

use xaropinto::Refusal;

const BOOK_BYTES: usize = 41_876;
const RECORDS: usize = 1_694;
const MARK: u8 = 0xA5;

/// The next draw of both words.
fn draw(word: &mut u64, counter: &mut u64) -> u64 {
    *word ^= *word << 13;
    *word ^= *word >> 7;
    *word ^= *word << 17;
    *counter = counter.wrapping_add(362_437);
    word.wrapping_add(*counter)
}

/// Where each drawn field stands, in book order, with its span and its lowest value.
fn drawn_fields() -> Vec<(usize, u64, i64)> {
    let mut fields = Vec::new();
    for place in (36..1_220).step_by(4) {
        let is_rate = (56..252).contains(&place);
        let (span, lowest) = if is_rate {
            (210_000, -10_000)
        } else {
            (1_000_000, 0)
        };
        fields.push((place, span, lowest));
    }
    for start in (0..RECORDS).map(|record| 1_220 + 24 * record) {
        let spans = [100_000, 1_000_000, 10_000_000, 10_000_000];
        fields.extend((0..4).map(|at| (start + 8 + 4 * at, spans[at], 0)));
    }
    fields
}

fn practice_book(start: u64) -> Vec<u8> {
    let mut out = vec![MARK; BOOK_BYTES + 40];
    assert_eq!(xaropinto::practice(start, &mut out), Ok(BOOK_BYTES));
    assert!(out[BOOK_BYTES..].iter().all(|&byte| byte == MARK));
    out.truncate(BOOK_BYTES);
    out
}

#[test]
fn practice_fields_take_the_draws_in_book_order() {
    for start in [1, 2, 1 << 63, u64::MAX] {
        let book = practice_book(start);
        let (mut word, mut counter) = (start, 0);
        for (place, span, lowest) in drawn_fields() {
            let due = (draw(&mut word, &mut counter) % (span + 1)) as i64 + lowest;
            let field = i32::from_le_bytes(book[place..place + 4].try_into().unwrap());
            assert_eq!(i64::from(field), due, "start {start}, byte {place}");
        }
    }
}

#[test]
fn practice_books_have_14_full_chains_and_are_accepted() {
    let book = practice_book(7);
    assert_eq!(book[..8], [1, 1, 229, 7, 158, 6, 0, 0]);
    let counts = (0..RECORDS).map(|record| &book[1_228 + 24 * record..1_232 + 24 * record]);
    let n = counts.filter(|&count| count != [0; 4]).count() as u64;
    assert_eq!(xaropinto::check(&book).map(|accepted| accepted.n), Ok(n));
    for chain in 0..14 {
        let head = u16::from_le_bytes([book[8 + 2 * chain], book[9 + 2 * chain]]);
        assert_eq!(usize::from(head), 121 * chain + 1);
    }
}

#[test]
fn practice_refuses_a_short_buffer_before_the_number_0() {
    let refused = |number| Err(Refusal { number, place: 0 });
    let mut out = vec![MARK; BOOK_BYTES];
    for start in [0, 1] {
        let short = &mut out[..BOOK_BYTES - 1];
        assert_eq!(xaropinto::practice(start, short), refused(16));
        assert_eq!(xaropinto::practice(start, &mut []), refused(16));
    }
    assert_eq!(xaropinto::practice(0, &mut out), refused(32));
    assert!(out.iter().all(|&byte| byte == MARK));
}
