//! Another check and valuation, written from the paper alone and as plainly as can be, and a maker
//! of books to try them on. It neither links the archive nor follows its code.

pub mod book;
pub mod check;
pub mod chooser;
pub mod damage;
pub mod layout;
pub mod report;
pub mod settings;
pub mod valuation;

/// The number and the place of the first refusal that applies.
pub type Refusal = (u64, u64);
