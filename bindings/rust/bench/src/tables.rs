//! What the program writes: for each call on a book a table with a line for each row.

use crate::calls::{Measured, ARCHIVE, TUNED_EIGHT, TUNED_FIVE};
use crate::timing::median;

/// A call on a book.
pub struct Results {
    /// for each row the median milliseconds over the links
    times: Vec<f64>,
    /// for each row the archive's time over its own, in one link; the median over the links
    ratios: Vec<f64>,
}

impl Results {
    /// From what each link has for each row.
    pub fn new(links: &[Vec<f64>]) -> Results {
        let over_links = |figure: &dyn Fn(&[f64], usize) -> f64| {
            let rows = links.first().map_or(0, Vec::len);
            (0..rows)
                .map(|row| median(links.iter().map(|times| figure(times, row)).collect()))
                .collect()
        };
        Results {
            times: over_links(&|times, row| times[row]),
            ratios: over_links(&|times, row| times[ARCHIVE] / times[row]),
        }
    }
}

/// The table of a call, with the instructions of its rows where they were counted.
pub fn print_call(measured: &Measured, results: &Results, instructions: Option<&[u64]>) {
    print!(
        "{:<40} {:>10} {:>16}",
        measured.name, "ms", "archive over it"
    );
    if instructions.is_some() {
        print!(" {:>12} {:>16}", "million", "archive over it");
    }
    println!();
    for (number, row) in measured.call.rows.iter().enumerate() {
        let (time, ratio) = (results.times[number], results.ratios[number]);
        print!("{:<40} {time:>10.4} {ratio:>16.3}", row.name);
        if let Some(counts) = instructions {
            let millions = counts[number] as f64 / 1e6;
            let ratio = counts[ARCHIVE] as f64 / counts[number] as f64;
            print!(" {millions:>12.3} {ratio:>16.3}");
        }
        println!();
    }
}

/// The last line of Totals.
pub fn print_python(time: f64, results: &Results) {
    let ratio = results.times[ARCHIVE] / time;
    println!("{:<40} {time:>10.1} {ratio:>16.5}", "Python integers");
}

/// The heading of the goals' lines.
pub fn print_goals_heading() {
    println!(
        "{:<40} {:>10} {:>16}",
        "The archive over any Rust row", "goal", "greatest here"
    );
}

/// One line for a call on a book: its goal, and the greatest of the ratios.
pub fn print_goal(measured: &Measured, book: &str, goal: f64, results: &Results) {
    let greatest = results.ratios[ARCHIVE + 1..]
        .iter()
        .copied()
        .fold(0.0, f64::max);
    let name = format!("{}, {book}", measured.name);
    let verdict = if greatest <= goal { "met" } else { "missed" };
    println!("{name:<40} {goal:>10.2} {greatest:>16.3} {verdict}");
}

/// The heading of the chains' lines.
pub fn print_chains_heading() {
    println!("Totals of a dense book by its chains; `a chain` is the time above that without any,");
    println!(
        "over the chains. `eight` is the tuned Rust with eight projections, `five` with five."
    );
    println!(
        "chains records  archive ms  a chain  eight ms  a chain   five ms  a chain  \
         archive / eight  archive / five"
    );
}

/// One line: each time, and what a chain adds to the time without any.
pub fn print_chains(chains: usize, records: usize, results: &Results, without: &Results) {
    let a_chain = |row: usize| (results.times[row] - without.times[row]) / chains.max(1) as f64;
    print!("{chains:>6} {records:>7}");
    for (row, width) in [(ARCHIVE, 11), (TUNED_EIGHT, 9), (TUNED_FIVE, 9)] {
        print!(" {:>width$.3} {:>8.3}", results.times[row], a_chain(row));
    }
    println!(
        " {:>16.2} {:>15.2}",
        results.ratios[TUNED_EIGHT], results.ratios[TUNED_FIVE]
    );
}
