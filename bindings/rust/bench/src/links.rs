//! The times of several links of this program, in each of which the linker put the functions
//! elsewhere.

use std::process::Command;
use std::str::FromStr;
use std::vec;

/// The word that asks a link for its times.
pub const ONE_RUN: &str = "--one-run";

/// What the links wrote, each run once: times, one to a line and in the same order.
pub struct Runs {
    of_links: Vec<vec::IntoIter<f64>>,
}

impl Runs {
    pub fn of(links: &[&str]) -> Result<Runs, String> {
        let runs = links.iter().map(|link| run_times(link));
        let of_links = runs.collect::<Result<Vec<_>, _>>()?;
        if of_links.windows(2).any(|two| two[0].len() != two[1].len()) {
            return Err("the links are not of one program".to_string());
        }
        Ok(Runs { of_links })
    }

    /// The next so many times of each link.
    pub fn next(&mut self, count: usize) -> Vec<Vec<f64>> {
        self.of_links
            .iter_mut()
            .map(|times| times.take(count).collect())
            .collect()
    }
}

fn run_times(link: &str) -> Result<vec::IntoIter<f64>, String> {
    let output = Command::new(link)
        .arg(ONE_RUN)
        .output()
        .map_err(|trouble| format!("{link}: {trouble}"))?;
    if !output.status.success() {
        return Err(String::from_utf8_lossy(&output.stderr).into_owned());
    }
    let times = String::from_utf8_lossy(&output.stdout)
        .lines()
        .map(f64::from_str)
        .collect::<Result<Vec<_>, _>>();
    times
        .map(Vec::into_iter)
        .map_err(|trouble| format!("{link}: {trouble}"))
}
