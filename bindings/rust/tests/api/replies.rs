//! Replies of both sides in one form, so that they can be compared; a book on which they differ is
//! kept.

use std::fmt::Debug;
use std::fs;
use std::path::Path;

use plain::valuation::{Group, Totals};
use plain::{check, valuation, Refusal};

/// At the repository's top, as the books that the other tests keep.
const KEPT_FOLDER: &str = concat!(env!("CARGO_MANIFEST_DIR"), "/../../differing");

fn refusal_of(refusal: xaropinto::Refusal) -> Refusal {
    (refusal.number, refusal.place)
}

/// A reply to Group and the whole table after it.
pub type GroupAndTable = (Result<Group, Refusal>, Vec<u64>);

pub fn archive_check(book: &[u8]) -> Result<u64, Refusal> {
    xaropinto::check(book)
        .map(|accepted| accepted.n)
        .map_err(refusal_of)
}

pub fn archive_totals(book: &[u8]) -> Result<Totals, Refusal> {
    let reply = xaropinto::totals(book).map_err(refusal_of)?;
    Ok(Totals {
        n: reply.n,
        totals: reply.totals,
        differences: reply.differences,
    })
}

/// Where the part that is returned starts in the book.
pub fn archive_record(book: &[u8], number: usize) -> Result<usize, Refusal> {
    let part = xaropinto::record(book, number).map_err(refusal_of)?;
    assert_eq!(part.len(), 24);
    Ok(part.as_ptr() as usize - book.as_ptr() as usize)
}

/// A different mark in every number, so that a moved one shows.
fn marked_table(numbers: usize) -> Vec<u64> {
    (0..numbers as u64).map(|number| !number).collect()
}

pub fn archive_group(book: &[u8], setting: usize, group: usize, numbers: usize) -> GroupAndTable {
    let mut table = marked_table(numbers);
    let reply = xaropinto::group(book, setting, group, &mut table);
    let reply = reply.map_err(refusal_of).map(|reply| Group {
        liability: reply.liability,
        n: reply.n,
    });
    (reply, table)
}

pub fn plain_group(book: &[u8], setting: usize, group: usize, numbers: usize) -> GroupAndTable {
    let mut table = marked_table(numbers);
    let reply = valuation::group(book, setting, group, &mut table);
    (reply, table)
}

/// The name of a drawn book: its test, its seed and its number.
pub fn drawn(test: &str, seed: u64, number: usize) -> String {
    format!("{test}-{seed}-{number}")
}

/// Keeps a book under its name; where it cannot be kept, the message says so.
fn keep(book: &[u8], name: &str) -> String {
    let file = format!("{}.book", name.replace(' ', "_"));
    let kept = fs::create_dir_all(KEPT_FOLDER)
        .and_then(|()| fs::write(Path::new(KEPT_FOLDER).join(&file), book));
    match kept {
        Ok(()) => format!("kept as differing/{file}"),
        Err(trouble) => format!("could not be kept: {trouble}"),
    }
}

/// The reply on which both sides agree; a book on which they do not is kept first.
fn agreed<T: PartialEq + Debug>(book: &[u8], name: &str, asked: &str, given: T, due: T) -> T {
    if given != due {
        let kept = keep(book, name);
        assert_eq!(given, due, "{name}, {asked}: the book is {kept}");
    }
    due
}

pub fn agreed_check(book: &[u8], name: &str) -> Result<u64, Refusal> {
    agreed(book, name, "check", archive_check(book), check::check(book))
}

pub fn agreed_totals(book: &[u8], name: &str) -> Result<Totals, Refusal> {
    let due = valuation::totals(book);
    agreed(book, name, "totals", archive_totals(book), due)
}

pub fn agreed_record(book: &[u8], number: usize, name: &str) -> Result<usize, Refusal> {
    let due = check::record(book, number);
    let asked = format!("record {number}");
    agreed(book, name, &asked, archive_record(book, number), due)
}

pub fn agreed_group(
    book: &[u8],
    setting: usize,
    group: usize,
    numbers: usize,
    name: &str,
) -> GroupAndTable {
    let due = plain_group(book, setting, group, numbers);
    let given = archive_group(book, setting, group, numbers);
    let asked = format!("setting {setting}, group {group}, table of {numbers}");
    agreed(book, name, &asked, given, due)
}
