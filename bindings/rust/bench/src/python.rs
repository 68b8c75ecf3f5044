//! The Python integers: a script times them on a book in a file.

use std::process::Command;
use std::str::FromStr;

use plain::valuation::Totals;

const SCRIPT: &str = "tools.time_totals";
pub const RUNS: usize = 3;

/// The median milliseconds of Totals, where the figures are those that are due.
pub fn median_time(file: &str, due: &Totals) -> Result<f64, String> {
    let output = Command::new("python3")
        .args(["-m", SCRIPT, file])
        .arg(RUNS.to_string())
        .output()
        .map_err(|trouble| format!("python3 -m {SCRIPT}: {trouble}"))?;
    let line = String::from_utf8_lossy(&output.stdout);
    let (milliseconds, figures) = line
        .trim_end()
        .split_once(' ')
        .ok_or_else(|| format!("{SCRIPT}: {}", String::from_utf8_lossy(&output.stderr)))?;
    if figures != figures_of(due) {
        return Err("the Python integers differ from the plain Rust".to_string());
    }
    f64::from_str(milliseconds).map_err(|trouble| format!("{SCRIPT}: {trouble}"))
}

/// n, the totals and the differences, as the script writes them.
fn figures_of(totals: &Totals) -> String {
    let mut figures = totals.n.to_string();
    for figure in totals.totals.iter().chain(&totals.differences) {
        figures += &format!(" {figure}");
    }
    figures
}
