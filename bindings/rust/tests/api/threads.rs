//! Calls at the same time in several threads, on one shared book.

use std::thread;

use plain::book::{full_book, Kind};
use plain::chooser::Chooser;

use crate::replies::{archive_group, archive_totals};

const SEED: u64 = 4;

#[test]
fn threads_get_the_replies_of_one() {
    let book = full_book(&mut Chooser::new(SEED), Kind::Believable);
    let totals = archive_totals(&book);
    assert!(totals.is_ok(), "full book of seed {SEED}: {totals:?}");
    let groups: Vec<_> = (0..8)
        .map(|setting| archive_group(&book, setting, 1, 200))
        .collect();
    assert!(groups.iter().all(|(reply, _)| reply.is_ok()));
    thread::scope(|scope| {
        for _ in 0..4 {
            scope.spawn(|| {
                for (setting, due) in groups.iter().enumerate() {
                    assert_eq!(&archive_group(&book, setting, 1, 200), due);
                }
                assert_eq!(archive_totals(&book), totals);
            });
        }
    });
}
