//! The times of one run of this program.

use std::hint::black_box;
use std::time::Instant;

use crate::calls::{Buffers, Measured, Question, Row};

/// In each round every row has its turn.
pub const ROUNDS: usize = 31;

/// For each row of a call on a book its median milliseconds. The rows take turns, so that a busy
/// moment of the machine falls on no one alone.
pub fn row_times(measured: &Measured, book: &[u8]) -> Vec<f64> {
    let question = measured.question(book);
    let mut buffers = Buffers::new();
    let mut times = vec![Vec::with_capacity(ROUNDS); measured.call.rows.len()];
    for _ in 0..ROUNDS {
        for (row, times) in measured.call.rows.iter().zip(&mut times) {
            times.push(milliseconds(row, question, &mut buffers));
        }
    }
    times.into_iter().map(median).collect()
}

/// Of a second call: the first finds the caches as the row before left them.
fn milliseconds(row: &Row, question: Question, buffers: &mut Buffers) -> f64 {
    black_box((row.answer)(black_box(question), black_box(buffers))).ok();
    let began = Instant::now();
    black_box((row.answer)(black_box(question), black_box(buffers))).ok();
    began.elapsed().as_secs_f64() * 1_000.0
}

/// The one in the middle, or the mean of the two in the middle.
pub fn median(mut times: Vec<f64>) -> f64 {
    times.sort_by(f64::total_cmp);
    let middle = times.len() / 2;
    if times.len() % 2 == 1 {
        times[middle]
    } else {
        (times[middle - 1] + times[middle]) / 2.0
    }
}
