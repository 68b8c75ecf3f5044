//! Instructions of one call, counted by valgrind in a run of this program for that call alone.

use std::env;
use std::hint::black_box;
use std::process::Command;

use crate::calls::{Buffers, Measured, MEASURED};

/// The word that asks for one call; what follows is the number of the call as it is measured, that
/// of the row or none, and the book.
pub const ONE_CALL: &str = "--one-call";
const NO_ROW: &str = "none";

/// Has one row answer one call on a book in a file.
pub fn make_one_call(measured: &str, row: &str, file: &str) -> Result<(), String> {
    let book = std::fs::read(file).map_err(|trouble| format!("{file}: {trouble}"))?;
    let number = |word: &str| {
        word.parse::<usize>()
            .map_err(|_| format!("no number: {word}"))
    };
    let measured = &MEASURED[number(measured)?];
    let mut buffers = Buffers::new();
    if row != NO_ROW {
        let answer = measured.call.rows[number(row)?].answer;
        black_box(answer(measured.question(&book), black_box(&mut buffers))).ok();
    }
    Ok(())
}

/// For each row of a call the instructions, less those of a run without a call.
pub fn count_rows(number: usize, measured: &Measured, file: &str) -> Result<Vec<u64>, String> {
    let idle = collected(number, NO_ROW, file)?;
    (0..measured.call.rows.len())
        .map(|row| Ok(collected(number, &row.to_string(), file)? - idle))
        .collect()
}

fn collected(measured: usize, row: &str, file: &str) -> Result<u64, String> {
    let program = env::current_exe().map_err(|trouble| trouble.to_string())?;
    let output = Command::new("valgrind")
        .args(["--tool=callgrind", "--callgrind-out-file=/dev/null"])
        .arg(program)
        .args([ONE_CALL, &measured.to_string(), row, file])
        .output()
        .map_err(|trouble| format!("valgrind: {trouble}"))?;
    let said = String::from_utf8_lossy(&output.stderr);
    said.lines()
        .find_map(|line| line.split_once("Collected :"))
        .and_then(|(_, number)| number.trim().parse().ok())
        .ok_or_else(|| format!("valgrind counted nothing: {said}"))
}
