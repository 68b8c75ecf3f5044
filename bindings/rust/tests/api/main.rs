//! The archive's replies, compared with the paper's figures and the plain valuation.

mod claims_variation;
mod cost_rates;
mod differential;
mod funds;
mod in_force;
mod practice_book;
mod replies;
mod standard_deviation;
mod threads;
mod trial_figures;
mod wrapper;
mod write_read;
mod year_report;
