//! The year report: premium after cap and outgo, from the year tables.

use crate::layout::PRODUCT_GROUPS;
use crate::valuation::{group, TABLE_NUMBERS};
use crate::Refusal;

/// The report of a setting: a heading, and a line for each year of each product group.
pub fn report_text(book: &[u8], setting: usize) -> Result<String, Refusal> {
    let mut text = String::from("group,year,premium,outgo\n");
    for number in 1..=PRODUCT_GROUPS {
        let mut table = [0; TABLE_NUMBERS];
        group(book, setting, number, &mut table)?;
        for (k, year) in table.chunks(4).enumerate() {
            text += &format!("{number},{k},{},{}\n", year[0], year[1]);
        }
    }
    Ok(text)
}

/// Writes the report to the start of a buffer; its length.
pub fn report(book: &[u8], setting: usize, out: &mut [u8]) -> Result<usize, Refusal> {
    let text = report_text(book, setting)?;
    let start = out.get_mut(..text.len()).ok_or((20, 0))?;
    start.copy_from_slice(text.as_bytes());
    Ok(text.len())
}
