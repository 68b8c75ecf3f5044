//! Times the calls of the archive beside Rust, and Totals beside the Python integers too.
//!
//! First all rows of each call must give the same figures, on random books, on the samples and on
//! the books that are timed. Then each time is a median of medians:
//!
//! - In one run of the program the rows of a call take turns, in `timing::ROUNDS` rounds; a row's
//!   time is the median of its rounds. A moment in which the machine is busy, or clocks its
//!   processor up or down, falls on all rows.
//! - Where in memory a loop stands moves its time, by 14 percent where nothing aligns it, and every
//!   run of one program has it in the same place. So the program is linked several times with its
//!   functions in shuffled order (`build.rs`) and each link is run once. The time of a row is the
//!   median over the links; so is the ratio of the archive's time to it, taken in each link.
//!
//! `make bench` makes the links and names them to one of them, which runs them all and writes the
//! tables. `--instructions` counts the instructions of each row too: the same in every run and on a
//! busy machine.

mod agreement;
mod books;
mod calls;
mod curve;
mod instructions;
mod links;
mod one_projection;
mod python;
mod reading;
mod rival;
mod share;
mod tables;
mod timing;
mod tuned;

use std::process::ExitCode;
use std::{env, fs};

use plain::layout::{record_count, CHAINS};
use plain::valuation::totals;

use calls::{Measured, MEASURED, MEASURED_TOTALS};
use links::Runs;
use tables::Results;

/// The repository's top; all paths below start there.
const TOP: &str = concat!(env!("CARGO_MANIFEST_DIR"), "/../../..");
const FOLDER: &str = "target/bench";
const DENSE_BOOK: &str = "target/bench/dense_full.book";
/// The measured books, in the order of a call's goals.
const BOOKS: [(&str, &str); 2] = [
    ("dense full book", DENSE_BOOK),
    ("small insurer", "samples/small_insurer.book"),
];
const CHAIN_COUNTS: [usize; 6] = [0, 1, 2, 4, 7, 14];
const COUNT_INSTRUCTIONS: &str = "--instructions";

fn main() -> ExitCode {
    let words: Vec<String> = env::args().skip(1).collect();
    let words: Vec<&str> = words.iter().map(String::as_str).collect();
    let done = go_to_the_top().and_then(|()| match words[..] {
        [links::ONE_RUN] => write_times(),
        [instructions::ONE_CALL, measured, row, file] => {
            instructions::make_one_call(measured, row, file)
        }
        [COUNT_INSTRUCTIONS, ref links @ ..] => compare(links, true),
        ref links => compare(links, false),
    });
    match done {
        Ok(()) => ExitCode::SUCCESS,
        Err(trouble) => {
            eprintln!("bench: {trouble}");
            ExitCode::FAILURE
        }
    }
}

/// Cargo runs a program wherever cargo was called.
fn go_to_the_top() -> Result<(), String> {
    env::set_current_dir(TOP).map_err(|trouble| format!("{TOP}: {trouble}"))
}

fn read_book(file: &str) -> Result<Vec<u8>, String> {
    fs::read(file).map_err(|trouble| format!("{file}: {trouble}"))
}

/// The times of one run, one to a line: of each row of each call on each book, and of Totals on
/// books of more and more chains.
fn write_times() -> Result<(), String> {
    let write = |measured: &Measured, book: &[u8]| {
        for time in timing::row_times(measured, book) {
            println!("{time}");
        }
    };
    for (_, file) in BOOKS {
        let book = read_book(file)?;
        for measured in &MEASURED {
            write(measured, &book);
        }
    }
    for chains in CHAIN_COUNTS {
        write(&MEASURED_TOTALS, &books::dense(chains));
    }
    Ok(())
}

/// The tables of all books. Without a name of a link this program is the only one.
fn compare(links: &[&str], with_instructions: bool) -> Result<(), String> {
    let program = env::current_exe().map_err(|trouble| trouble.to_string())?;
    let program = program.to_string_lossy();
    let alone = [&*program];
    let links = if links.is_empty() { &alone } else { links };
    write_dense_book()?;
    agree_on_all_books()?;
    println!("Release build: opt-level 3, lto, one codegen unit, panic abort, no target-cpu.");
    println!(
        "Milliseconds: the median of {} links, in each that of {} rounds; of {} runs for Python.",
        links.len(),
        timing::ROUNDS,
        python::RUNS
    );
    let mut runs = Runs::of(links)?;
    let mut results = Vec::new();
    for (name, file) in BOOKS {
        results.push(compare_on(name, file, &mut runs, with_instructions)?);
    }
    compare_by_chains(&mut runs);
    print_goals(&results);
    Ok(())
}

/// For the programs that are run on it.
fn write_dense_book() -> Result<(), String> {
    fs::create_dir_all(FOLDER)
        .and_then(|()| fs::write(DENSE_BOOK, books::dense(CHAINS)))
        .map_err(|trouble| format!("{DENSE_BOOK}: {trouble}"))
}

fn agree_on_all_books() -> Result<(), String> {
    for book in books::untimed() {
        agreement::agree_on(&book)?;
    }
    for (name, book) in books::samples()? {
        agreement::agree_on(&book).map_err(|trouble| format!("{name}: {trouble}"))?;
    }
    for chains in CHAIN_COUNTS {
        agreement::agree_on(&books::dense(chains))?;
    }
    Ok(())
}

fn next_results(measured: &Measured, runs: &mut Runs) -> Results {
    Results::new(&runs.next(measured.call.rows.len()))
}

/// The tables of one book.
fn compare_on(
    name: &str,
    file: &str,
    runs: &mut Runs,
    with_instructions: bool,
) -> Result<Vec<Results>, String> {
    let book = read_book(file)?;
    let due = totals(&book).map_err(|_| format!("{file} is refused"))?;
    let records = record_count(&book);
    println!();
    println!(
        "The {name}, {file}: {records} records, {} with contracts",
        due.n
    );
    let mut all = Vec::new();
    for (number, measured) in MEASURED.iter().enumerate() {
        let results = next_results(measured, runs);
        let counts = || instructions::count_rows(number, measured, file);
        let instructions = with_instructions.then(counts).transpose()?;
        println!();
        tables::print_call(measured, &results, instructions.as_deref());
        if number == 0 {
            tables::print_python(python::median_time(file, &due)?, &results);
        }
        all.push(results);
    }
    Ok(all)
}

/// Dense books of more and more chains: each chain costs the same.
fn compare_by_chains(runs: &mut Runs) {
    println!();
    tables::print_chains_heading();
    let results = CHAIN_COUNTS.map(|_| next_results(&MEASURED_TOTALS, runs));
    for (chains, of_chains) in CHAIN_COUNTS.into_iter().zip(&results) {
        let records = record_count(&books::dense(chains));
        tables::print_chains(chains, records, of_chains, &results[0]);
    }
}

fn print_goals(results: &[Vec<Results>]) {
    println!();
    tables::print_goals_heading();
    for (at, ((name, _), results)) in BOOKS.iter().zip(results).enumerate() {
        for (measured, results) in MEASURED.iter().zip(results) {
            if let Some(goal) = measured.goals[at] {
                tables::print_goal(measured, name, goal, results);
            }
        }
    }
}
