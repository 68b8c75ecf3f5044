//! The refusals in words: the broken rule, and who mends it.

/// The rule of a refusal; nothing for a number that no call gives.
pub(crate) fn words(number: u64) -> &'static str {
    match number {
        // refusals: begin, written by python3 -m tools.refusals write
        1 => {
            "a book has at least 1,220 bytes, a fund file at least 56; owner: the department that writes the file"
        }
        2 => {
            "the edition is 1 or 2; owner: the department that writes the file"
        }
        3 => {
            "the age basis is 1; for Convert it is 2; owner: the department that writes the file"
        }
        4 => {
            "the SST year is 2017 to 2100, there are at most 1,694 records, and bytes 6 and 7 are zero in edition 1; owner: the department that writes the file"
        }
        5 => {
            "the length is 1,220 bytes and 24 for each record; owner: the department that writes the file"
        }
        6 => {
            "a cost rate is at most 1,000,000 millionths; owner: the insurer's cost sheet"
        }
        7 => {
            "a curve rate is -10,000 to 200,000 millionths; owner: the keeper of the supervisor's tables"
        }
        8 => {
            "a mortality is at most 1,000,000 millionths; owner: the keeper of the supervisor's tables"
        }
        9 => {
            "a head or next is at most the number of records; so is the number that Record is asked for, and it is not 0; owner: the portfolio department; in Record the caller"
        }
        10 => {
            "a linked record has its chain's code and sex, and zero in its spare bytes; owner: the portfolio department"
        }
        11 => {
            "a chain's first class is at most 120, in Convert 121, in Write 121 for no records; each later class is one more; owner: the portfolio department"
        }
        12 => {
            "the count is at most 100,000, the lapse at most 1,000,000 millionths, premium and claims each at most 10,000,000 centimes; owner: the portfolio department"
        }
        13 => {
            "a chain ends at class 120, in Convert at 121, and nowhere else; owner: the portfolio department"
        }
        14 => {
            "the setting is 0 to 7; owner: the caller"
        }
        15 => {
            "the product group is 1 to 5; owner: the caller"
        }
        16 => {
            "the buffer passed is long enough: 200 numbers for Group, 16 for Funds, the book's length for Convert, 41,876 bytes for Practice; owner: the caller"
        }
        17 => {
            "amounts of accounts are at most 1,000,000,000 francs, a stock at most 10,000,000 contracts; owner: the insurer's cost sheet"
        }
        18 => {
            "no year's stock or claims add up to 0, and a group with something in any of three years has premium in each; owner: the insurer's cost sheet"
        }
        19 => {
            "no cost rate out of the accounts is above 1,000,000 millionths; owner: the insurer's cost sheet"
        }
        20 => {
            "the buffer passed for a listing or a year report is as long as the text; owner: the caller"
        }
        21 => {
            "on age basis 2 no linked record has class 0; owner: the portfolio department"
        }
        22 => {
            "the lists have the lengths that their chains ask, and what is to be filled is long enough; owner: the caller"
        }
        23 => {
            "each mortality percentage of edition 2 is 1 to 100; owner: the department that writes the file"
        }
        24 => {
            "the table file has 1,164 bytes; owner: the department that writes the file"
        }
        25 => {
            "the subgroup code is 1 to 7, the sex 0 or 1, and the buffer has at least 50 numbers; owner: the caller"
        }
        26 => {
            "the chain of that code and sex has a record of that class; owner: the caller"
        }
        27 => {
            "none of the five figures is below the one before it or above 10,000,000 centimes, and the highest is not 0; owner: the portfolio department"
        }
        28 => {
            "the sample factors are numbers from 1/1,024 to 1,000; owner: the keeper of the supervisor's tables"
        }
        29 => {
            "a coefficient is at most 1,000,000 millionths; the correlation is symmetric, 1,000 on its diagonal and -1,000 to 1,000 elsewhere; owner: the caller"
        }
        30 => {
            "no scaled factor is above 1,000,000 or below -1,000,000; owner: the caller"
        }
        31 => {
            "the quadratic form is not negative; owner: the caller"
        }
        32 => {
            "the start number is not 0; owner: the caller"
        }
        // refusals: end
        _ => "",
    }
}
