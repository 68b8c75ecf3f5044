//! Random books, short and long, valid and damaged: every call compared with its plain counterpart.

use plain::book::{full_book, random_book, Kind};
use plain::chooser::Chooser;
use plain::damage::damage;
use plain::layout::record_count;

use crate::replies::{agreed_check, agreed_group, agreed_record, agreed_totals, drawn};

/// Numbers out of range, and some that would be in range if they lost their high bits.
const ODD_NUMBERS: [usize; 6] = [0, 6, 8, (1 << 32) + 1, 1 << 63, usize::MAX];
const TABLES: [usize; 5] = [0, 199, 200, 201, 300];

/// Mostly short chains; a book of 14 full ones now and then.
fn valid_book(chooser: &mut Chooser) -> Vec<u8> {
    let longest_chain = chooser.pick(&[2, 2, 4, 4, 10, 30, 121]);
    let most_chains = chooser.pick(&[1, 3, 6, 14]);
    random_book(chooser, longest_chain, most_chains)
}

fn mostly_damaged_book(chooser: &mut Chooser) -> Vec<u8> {
    let mut book = valid_book(chooser);
    if chooser.percent(85) {
        damage(&mut book, chooser);
    }
    book
}

/// Valid half of the time, so that there are figures to compare.
fn valid_or_damaged_book(chooser: &mut Chooser) -> Vec<u8> {
    if chooser.percent(50) {
        valid_book(chooser)
    } else {
        mostly_damaged_book(chooser)
    }
}

/// One of `usual`, now and then an odd number.
fn mostly(usual: std::ops::Range<usize>, chooser: &mut Chooser) -> usize {
    if chooser.percent(90) {
        usual.start + chooser.below(usual.len())
    } else {
        chooser.pick(&ODD_NUMBERS)
    }
}

/// Acceptance, the refusals up to the last of these, and 23.
fn assert_all_seen(times: &[usize; 24], last: usize) {
    for refusal in (0..=last).chain([23]) {
        let times = times[refusal];
        assert!(times >= 10, "refusal {refusal} was seen {times} times");
    }
}

/// Full books, each with its test, its seed and its kind as its name.
fn full_books() -> Vec<(&'static str, Vec<u8>)> {
    let mut chooser = Chooser::new(1_694);
    [
        ("full-1694-believable", Kind::Believable),
        ("full-1694-anywhere", Kind::Anywhere),
        ("full-1694-at_ends", Kind::AtEnds),
    ]
    .map(|(name, kind)| (name, full_book(&mut chooser, kind)))
    .into()
}

#[test]
fn verdicts_agree_and_every_refusal_is_reached() {
    let seed = 41_876;
    let mut chooser = Chooser::new(seed);
    let mut seen = [0; 24];
    for number in 0..20_000 {
        let book = mostly_damaged_book(&mut chooser);
        let verdict = agreed_check(&book, &drawn("verdicts", seed, number));
        let refusal = verdict.map_or_else(|refusal| refusal.0, |_| 0);
        seen[refusal as usize] += 1;
    }
    assert_all_seen(&seen, 13);
}

#[test]
fn cut_and_extended_books_agree() {
    let seed = 1_220;
    let book = random_book(&mut Chooser::new(seed), 4, 3);
    for length in 0..book.len() + 60 {
        let mut changed = book.clone();
        changed.resize(length, 0);
        let name = drawn("lengths", seed, length);
        agreed_check(&changed, &name).ok();
        agreed_totals(&changed, &name).ok();
    }
}

#[test]
fn groups_and_tables_agree_and_every_refusal_is_reached() {
    let seed = 200;
    let mut chooser = Chooser::new(seed);
    let mut seen = [0; 24];
    for number in 0..6_000 {
        let book = valid_or_damaged_book(&mut chooser);
        let setting = mostly(0..8, &mut chooser);
        let group = mostly(1..6, &mut chooser);
        let numbers = chooser.pick(&TABLES);
        let name = drawn("groups", seed, number);
        let (reply, _) = agreed_group(&book, setting, group, numbers, &name);
        seen[reply.map_or_else(|refusal| refusal.0, |_| 0) as usize] += 1;
    }
    assert_all_seen(&seen, 16);
}

#[test]
fn every_setting_and_group_agrees() {
    let seed = 85;
    let mut chooser = Chooser::new(seed);
    for number in 0..40 {
        let book = valid_book(&mut chooser);
        let name = drawn("all_groups", seed, number);
        for setting in 0..8 {
            for group in 1..=5 {
                agreed_group(&book, setting, group, 201, &name)
                    .0
                    .expect("a valid book");
            }
        }
    }
}

#[test]
fn odd_settings_groups_and_tables_agree() {
    let seed = 14;
    let books = [valid_book(&mut Chooser::new(seed)), vec![0; 1_219]];
    for (number, book) in books.iter().enumerate() {
        let name = drawn("odd_numbers", seed, number);
        for setting in (0..10).chain(ODD_NUMBERS) {
            for group in (0..8).chain(ODD_NUMBERS) {
                for numbers in TABLES {
                    agreed_group(book, setting, group, numbers, &name).0.ok();
                }
            }
        }
    }
}

#[test]
fn groups_agree_on_full_books() {
    for (name, book) in full_books() {
        for setting in 0..8 {
            for group in 1..=5 {
                agreed_group(&book, setting, group, 300, name)
                    .0
                    .expect("a full book is accepted");
            }
        }
    }
}

#[test]
fn totals_agree_on_random_books() {
    let seed = 8;
    let mut chooser = Chooser::new(seed);
    let mut accepted = 0;
    for number in 0..1_500 {
        let book = valid_or_damaged_book(&mut chooser);
        let name = drawn("totals", seed, number);
        accepted += agreed_totals(&book, &name).is_ok() as usize;
    }
    assert!((800..1_200).contains(&accepted), "{accepted} accepted");
}

#[test]
fn totals_agree_on_full_books() {
    for (name, book) in full_books() {
        let totals = agreed_totals(&book, name).expect("a full book is accepted");
        assert_eq!(totals.n, agreed_check(&book, name).expect("accepted"));
    }
}

#[test]
fn records_agree() {
    let seed = 24;
    let mut chooser = Chooser::new(seed);
    let mut found = 0;
    for number in 0..2_000 {
        let book = mostly_damaged_book(&mut chooser);
        let count = if book.len() < 6 {
            0
        } else {
            record_count(&book)
        };
        let name = drawn("records", seed, number);
        let within = chooser.below(count + 1);
        let far = [(1 << 16) + 1, (1 << 32) + 1, (1 << 61) + 1, usize::MAX];
        for record in [0, 1, within, count, count + 1].into_iter().chain(far) {
            found += agreed_record(&book, record, &name).is_ok() as usize;
        }
    }
    assert!(found >= 1_000, "{found} records found");
}
