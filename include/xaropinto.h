/* Xaropinto: the SST long-term health liability valuation, for C (from C99) and C++ (from C++11).
 * Linux on x86-64 and arm64: link with libxaropinto.a or libxaropinto.so. Windows on x86-64: link
 * with xaropinto.lib, the import library of xaropinto.dll. Each function is documented at its
 * declaration; docs/API.md has memory, threads and stack in full, docs/FILE_FORMAT.md the format of
 * a book, docs/METHOD.md the figures.
 *
 * No call has a precondition beyond these rules for memory:
 * - A pointer is valid for the length passed with it, and may be null if that is 0. Tables, lists
 *   and numbers are aligned for uint64_t; byte buffers may start anywhere.
 * - What a call writes overlaps nothing else that is passed, and no other thread uses it, or writes
 *   to the input, during the call. Calls may run concurrently and share a book.
 * - The caller owns every buffer. No call keeps a pointer, and none allocates.
 * - The thread has enough stack: docs/API.md says how much for each call.
 *
 * Every reply, of Funds each fund's, begins with `refusal` and `place`. Refusal 0 means accepted.
 * Otherwise `refusal` is the broken rule, `place` is where, every other field is 0, and no buffer
 * (of Funds: that fund's half) is changed. The order in which a call tests its refusals is given
 * with it; 'the book's' are 1 to 13 and 23, in the order of docs/FILE_FORMAT.md.
 * xaropinto_refusal_text has each rule in words. No call relies on an earlier one: each checks the
 * whole book.
 *
 * Amounts of a book are centimes, those of accounts whole francs. */
#ifndef XAROPINTO_H
#define XAROPINTO_H

#include <stddef.h>
#include <stdint.h>

/* A book's sizes and counts. */
#define XAROPINTO_HEADER_BYTES 1220
#define XAROPINTO_RECORD_BYTES 24
#define XAROPINTO_MOST_RECORDS 1694
#define XAROPINTO_CHAINS 14
#define XAROPINTO_LAST_CLASS 120
#define XAROPINTO_SETTINGS 8
#define XAROPINTO_PRODUCT_GROUPS 5
/* The longest book. Read a file up to one byte more, to notice that it is too long. */
#define XAROPINTO_LONGEST_BOOK \
    (XAROPINTO_HEADER_BYTES + XAROPINTO_RECORD_BYTES * XAROPINTO_MOST_RECORDS)

/* Positions of fields in the header and in a record; sizes and ranges: docs/FILE_FORMAT.md. */
#define XAROPINTO_EDITION_AT 0
#define XAROPINTO_AGE_BASIS_AT 1
#define XAROPINTO_SST_YEAR_AT 2
#define XAROPINTO_RECORD_COUNT_AT 4
#define XAROPINTO_PERCENTAGES_AT 6
#define XAROPINTO_HEADS_AT 8
#define XAROPINTO_COST_RATES_AT 36
#define XAROPINTO_CURVE_AT 56
#define XAROPINTO_MORTALITY_AT 252
#define XAROPINTO_CODE_AT 0
#define XAROPINTO_SEX_AT 1
#define XAROPINTO_CLASS_AT 2
#define XAROPINTO_NEXT_AT 4
#define XAROPINTO_COUNT_AT 8
#define XAROPINTO_LAPSE_AT 12
#define XAROPINTO_PREMIUM_AT 16
#define XAROPINTO_CLAIMS_AT 20

/* The first class of a chain that has no records. */
#define XAROPINTO_NO_CLASS (XAROPINTO_LAST_CLASS + 1)
#define XAROPINTO_CURVE_RATES 49
#define XAROPINTO_SEXES 2
#define XAROPINTO_MORTALITIES (2 * (XAROPINTO_LAST_CLASS + 1))

/* The numbers that Group writes: four for each of fifty years. */
#define XAROPINTO_TABLE_NUMBERS 200
/* The numbers that In force writes: one for each of fifty years. */
#define XAROPINTO_IN_FORCE_NUMBERS 50
/* No listing is longer. */
#define XAROPINTO_MOST_LISTING_BYTES 512
/* No report is longer. */
#define XAROPINTO_MOST_REPORT_BYTES 9525

/* The years of accounts. */
#define XAROPINTO_ACCOUNT_YEARS 3

/* The bytes of a fund file before its records, the table file, and the numbers of two funds. */
#define XAROPINTO_FUND_FRONT_BYTES XAROPINTO_CURVE_AT
#define XAROPINTO_TABLE_FILE_BYTES (XAROPINTO_HEADER_BYTES - XAROPINTO_CURVE_AT)
#define XAROPINTO_FUNDS_NUMBERS 16

/* The risk factors: mortality, lapse, costs and claims, in this order. */
#define XAROPINTO_FACTORS 4

/* The version of this header, and as one number: 10,000 times the first part, 100 times the second,
 * and the third. */
#define XAROPINTO_VERSION "2.2.0"
#define XAROPINTO_VERSION_NUMBER 20200

/* Calls are made by the target's C calling convention: System V on x86-64, AAPCS64 on arm64, on
 * Windows the one of Microsoft's x64 (not __vectorcall: where /Gv makes that the default, this
 * header's functions are not found when the program is linked).
 *
 * On Windows they are imported from xaropinto.dll. A program that is linked with the calls
 * themselves defines XAROPINTO_STATIC before this header. */
#if defined(_WIN32) && !defined(_WIN64)
#error "xaropinto needs a 64-bit target"
#endif
#if defined(_WIN32) && !defined(XAROPINTO_STATIC)
#define XAROPINTO_API __declspec(dllimport) /* MSVC, clang-cl and MinGW know it */
#else
#define XAROPINTO_API
#endif

#ifdef __cplusplus
extern "C" {
#endif

/* n: the number of linked records with a count other than 0. */
typedef struct {
    uint64_t refusal;
    uint64_t place;
    uint64_t n;
} xaropinto_verdict;

/* liability: of the product group, negative if it is a credit. n: as above, of the group. */
typedef struct {
    uint64_t refusal;
    uint64_t place;
    int64_t liability;
    uint64_t n;
} xaropinto_group_reply;

/* totals: by setting. differences: setting 1 less 2, 3 less 4, 5 less 6, 7 less 0. n: of the book.
 * */
typedef struct {
    uint64_t refusal;
    uint64_t place;
    uint64_t n;
    int64_t totals[8];
    int64_t differences[4];
} xaropinto_totals_reply;

/* start: the position of the record's first byte in the book. length: 24. */
typedef struct {
    uint64_t refusal;
    uint64_t place;
    uint64_t start;
    uint64_t length;
} xaropinto_record_reply;

/* Three years of accounts. expenses: of a year, adjusted to the five product groups but not yet
 * lowered by 5 percent. stock: contracts, by year and product group, PG1 first; so claims and
 * premium, in whole francs. */
typedef struct {
    uint64_t expenses[XAROPINTO_ACCOUNT_YEARS];
    uint64_t stock[XAROPINTO_ACCOUNT_YEARS][XAROPINTO_PRODUCT_GROUPS];
    uint64_t claims[XAROPINTO_ACCOUNT_YEARS][XAROPINTO_PRODUCT_GROUPS];
    uint64_t premium[XAROPINTO_ACCOUNT_YEARS][XAROPINTO_PRODUCT_GROUPS];
} xaropinto_accounts;

/* rates: PG1 to PG5, in millionths of premium, each at most 1,000,000: valid cost rates of a book.
 * */
typedef struct {
    uint64_t refusal;
    uint64_t place;
    uint64_t rates[XAROPINTO_PRODUCT_GROUPS];
} xaropinto_cost_rates_reply;

/* length: of the listing or report. */
typedef struct {
    uint64_t refusal;
    uint64_t place;
    uint64_t length;
} xaropinto_report_reply;

/* The content of a book before its records, and where its chains begin. percentages: mortality of
 * men and of women, both 0 in edition 1. cost_rates: PG1 to PG5. curve: the rates for k = 1 to 49.
 * mortality: classes 0 to 120 of men, then of women. first_classes: of the 14 chains in the order
 * of their heads, 121 for a chain without records. All numbers have 64 bits, so that none is cut
 * before it is tested. */
typedef struct {
    uint64_t edition;
    uint64_t percentages[XAROPINTO_SEXES];
    uint64_t year;
    uint64_t cost_rates[XAROPINTO_PRODUCT_GROUPS];
    int64_t curve[XAROPINTO_CURVE_RATES];
    uint64_t mortality[XAROPINTO_MORTALITIES];
    uint64_t first_classes[XAROPINTO_CHAINS];
} xaropinto_values;

/* length: of the book that Write or Practice made. */
typedef struct {
    uint64_t refusal;
    uint64_t place;
    uint64_t length;
} xaropinto_write_reply;

/* values: of the book. */
typedef struct {
    uint64_t refusal;
    uint64_t place;
    xaropinto_values values;
} xaropinto_read_reply;

/* Each fund's own verdict; a refusal of one does not affect the other. */
typedef struct {
    xaropinto_verdict first;
    xaropinto_verdict second;
} xaropinto_funds_reply;

/* In force returns its numbers in a buffer. */
typedef struct {
    uint64_t refusal;
    uint64_t place;
} xaropinto_in_force_reply;

/* Yearly claims per contract in whole centimes: a five-number summary. */
typedef struct {
    uint64_t lowest;
    uint64_t first_quartile;
    uint64_t median;
    uint64_t third_quartile;
    uint64_t highest;
} xaropinto_summary;

/* level: 1 if the lowest claims equal the highest, else 0. mean: in centimes, exact. coefficient:
 * the deviation over the mean, 0 if level is 1. Both are finite and not negative. */
typedef struct {
    uint64_t refusal;
    uint64_t place;
    uint64_t level;
    double mean;
    double coefficient;
} xaropinto_spread_reply;

/* coefficients: of variation, in millionths. correlation: in thousandths, by row and column. */
typedef struct {
    uint64_t coefficients[XAROPINTO_FACTORS];
    int64_t correlation[XAROPINTO_FACTORS][XAROPINTO_FACTORS];
} xaropinto_risk_model;

/* deviation: in thousand francs, at most 4,000,000. */
typedef struct {
    uint64_t refusal;
    uint64_t place;
    uint64_t deviation;
} xaropinto_deviation_reply;

/* The version of the library that runs, as one number: XAROPINTO_VERSION_NUMBER where it is that of
 * this header. */
XAROPINTO_API
uint64_t xaropinto_version(void);

/* Check: whether the bytes are a valid book. Refusals: the book's. */
XAROPINTO_API
xaropinto_verdict xaropinto_check(const uint8_t *book, size_t length);

/* Group: the liability of one product group, 1 to 5, in one setting, 0 to 7. Refusals 14, 15, 16
 * (a table of less than XAROPINTO_TABLE_NUMBERS numbers), then the book's.
 *
 * `numbers` is the length of the table. Year k, 0 to 49, has the four numbers from 4 k: premium
 * after the cap, outgo, discounted premium, discounted outgo. Later numbers are unchanged.
 *
 * The distance of the liability from its exact, unrounded value is bounded: docs/ERROR_BOUND.md. */
XAROPINTO_API
xaropinto_group_reply xaropinto_group(const uint8_t *book, size_t length, size_t setting,
                                      size_t group, uint64_t *table, size_t numbers);

/* Totals: the liabilities of the five product groups added, in each of the eight settings.
 * Refusals: the book's. The distance of each total from its exact value is bounded:
 * docs/ERROR_BOUND.md. */
XAROPINTO_API
xaropinto_totals_reply xaropinto_totals(const uint8_t *book, size_t length);

/* Listing: the text to file, a line for each setting with its number, its total and n. Refusals:
 * the book's, then 20 if `bytes`, the length of `out`, is less than the text's.
 *
 * XAROPINTO_MOST_LISTING_BYTES are always enough. Bytes after the text are unchanged. */
XAROPINTO_API
xaropinto_report_reply xaropinto_listing(const uint8_t *book, size_t length, uint8_t *out,
                                         size_t bytes);

/* Record: the position of record `number`, counted from 1, linked or not. Refusals: the book's;
 * then 9 with place 0 if the number is 0 or above the number of records. */
XAROPINTO_API
xaropinto_record_reply xaropinto_record(const uint8_t *book, size_t length, size_t number);

/* Cost rates: those of the five product groups, from three years of accounts. Refusals 17 (tested
 * on all figures first), 18, 19, with place 0. */
XAROPINTO_API
xaropinto_cost_rates_reply xaropinto_cost_rates(xaropinto_accounts accounts);

/* Report: the fifty years of all product groups in one setting, as text. Refusals 14, the book's,
 * then 20 if `bytes`, the length of `out`, is less than the text's.
 *
 * The text is the line "group,year,premium,outgo" and 250 lines of these four numbers with commas
 * between: groups 1 to 5, in each the years 0 to 49, the premium after the cap. Byte 10 ends every
 * line. Bytes after the text are unchanged. */
XAROPINTO_API
xaropinto_report_reply xaropinto_report(const uint8_t *book, size_t length, size_t setting,
                                        uint8_t *out, size_t bytes);

/* Report length: that of the report of this book and setting, to the byte, at most
 * XAROPINTO_MOST_REPORT_BYTES. Nothing is written. Refusals 14, then the book's. */
XAROPINTO_API
xaropinto_report_reply xaropinto_report_room(const uint8_t *book, size_t length, size_t setting);

/* Convert: a book on age basis 2 converted to basis 1. Refusals 16 if `room`, the length of `out`,
 * is less than `length`; then the book's on basis 2: 3 if the basis is not 2, 11 and 13 with class
 * 121 instead of 120, and 21 between 10 and 11.
 *
 * The first `length` bytes of `out` become the converted book: byte 1 is 1, the class of every
 * linked record is one less, all else is copied. Later bytes are unchanged. Check accepts the
 * result with the same n. */
XAROPINTO_API
xaropinto_verdict xaropinto_convert(const uint8_t *book, size_t length, uint8_t *out, size_t room);

/* Write: the book of these values and lists, into the first bytes of `out`, which has `room` bytes.
 * Refusals, all with place 0: 11 (a first class above 121), 22, 2, 4 (the year; a percentage in
 * edition 1), 23 (in edition 2), 6, 7, 8, 12.
 *
 * Each list holds the chains one after the other, in the order of the heads, by rising class: 121
 * less its first class numbers for a chain. 22 if a list is shorter or longer, or if `out` is
 * shorter than the book: 1,220 bytes and 24 for each record. Lists may be the same memory. */
XAROPINTO_API
xaropinto_write_reply xaropinto_write(xaropinto_values values, const uint64_t *counts,
                                      size_t counts_length, const uint64_t *lapses,
                                      size_t lapses_length, const uint64_t *premiums,
                                      size_t premiums_length, const uint64_t *claims,
                                      size_t claims_length, uint8_t *out, size_t room);

/* Read: the values of a book, and its lists as Write takes them, without unlinked records.
 * Refusals: the book's; then 22 if a list has fewer numbers than the book has linked records.
 * XAROPINTO_MOST_RECORDS are always enough. Write makes the same bytes from what Read returns of a
 * book in order. Later numbers of a list are unchanged. */
XAROPINTO_API
xaropinto_read_reply xaropinto_read(const uint8_t *book, size_t length, uint64_t *counts,
                                    size_t counts_length, uint64_t *lapses, size_t lapses_length,
                                    uint64_t *premiums, size_t premiums_length, uint64_t *claims,
                                    size_t claims_length);

/* Funds: two funds on the same tables. `table` is bytes 56 to 1,219 of a book; `first` and `second`
 * are each bytes 0 to 55 and the records. A fund's joined book is the first 56 bytes of its file,
 * the table file, and the rest of its file. Refusals of both funds: 16 (less than
 * XAROPINTO_FUNDS_NUMBERS numbers), 24 (the table file's length); then of each fund 1, with its own
 * length, for less than 56 bytes, and the book's, 2 to 13 and 23, with places of the joined book.
 *
 * `count` is the length of `numbers`. Numbers 0 to 7 become the totals of the first fund's joined
 * book by setting if it is accepted, 8 to 15 those of the second. All others are unchanged, a
 * refused fund's among them. Neither file affects the other fund. The error bound is that of Totals
 * with the fund's n. The files may be the same memory. */
XAROPINTO_API
xaropinto_funds_reply xaropinto_funds(const uint8_t *table, size_t table_length,
                                      const uint8_t *first, size_t first_length,
                                      const uint8_t *second, size_t second_length, int64_t *numbers,
                                      size_t count);

/* In force: the contracts of one cell in force, year by year. Refusals 14; 25 (code, sex, or less
 * than XAROPINTO_IN_FORCE_NUMBERS numbers); the book's; 26 (the chain has no such class).
 *
 * The cell is the linked record of a subgroup code (1 to 7), a sex (0 men, 1 women) and a class;
 * `numbers` is the length of `out`. The first 50 numbers become what is in force at k = 0 to 49 in
 * the setting, in billionths of a contract. Later numbers are unchanged. */
XAROPINTO_API
xaropinto_in_force_reply xaropinto_in_force(const uint8_t *book, size_t length, size_t setting,
                                            size_t code, size_t sex, size_t age_class,
                                            uint64_t *out, size_t numbers);

/* Spread: mean and coefficient of variation of yearly claims, from their summary and the sample
 * factors xi and eta. Refusals 27, 28, with place 0, both before level.
 *
 * mean = (lowest + 2 first_quartile + 2 median + 2 third_quartile + highest) / 8
 * deviation = ((highest - lowest) / xi + (third_quartile - first_quartile) / eta) * 0.5
 * coefficient = deviation / mean, each operation in doubles and rounded once.
 *
 * The thread has the floating-point state of a process's start: rounding to nearest, ties to even,
 * no traps. */
XAROPINTO_API
xaropinto_spread_reply xaropinto_spread(xaropinto_summary claims, double xi, double eta);

/* Deviation: one standard deviation of the four risk factors of a book, from the differences of
 * Totals. Refusals: the book's; then 29, 30, 31, with place 0.
 *
 * A difference is divided by 100,000, multiplied by its coefficient and divided by 1,000 times its
 * span (400, 600, 400, 50); both divisions round towards zero. The factors' quadratic form with the
 * correlation is divided by 1,000, rounded down; the deviation is the largest whole number whose
 * square is at most that. */
XAROPINTO_API
xaropinto_deviation_reply xaropinto_deviation(const uint8_t *book, size_t length,
                                              xaropinto_risk_model model);

/* Practice: a book without any insurer's data, from a start number, into the first bytes of `out`,
 * which has `room` bytes. Refusals 16 if that is less than XAROPINTO_LONGEST_BOOK, then 32 for
 * start number 0, both with place 0.
 *
 * The book has SST year 2021, edition 1 and 14 full chains in order: XAROPINTO_LONGEST_BOOK bytes.
 * Later bytes are unchanged. All rates and records are drawn: docs/METHOD.md. Check accepts every
 * such book, and equal start numbers give equal bytes. */
XAROPINTO_API
xaropinto_write_reply xaropinto_practice(uint64_t start, uint8_t *out, size_t room);

/* The broken rule of a refusal, its place and its owner; "accepted" for 0, "" for any other
 * number. */
static inline const char *xaropinto_refusal_text(uint64_t refusal)
{
    switch (refusal) {
    case 0:
        return "accepted";
    /* refusals: begin, written by python3 -m tools.refusals write */
    case 1:
        return "a book has at least 1,220 bytes, a fund file at least 56; place: the length of "
               "the file; owner: the department that writes the file";
    case 2:
        return "the edition is 1 or 2; place: 0; owner: the department that writes the file";
    case 3:
        return "the age basis is 1; for Convert it is 2; place: 1; owner: the department that "
               "writes the file";
    case 4:
        return "the SST year is 2017 to 2100, there are at most 1,694 records, and bytes 6 and "
               "7 are zero in edition 1; place: 2, 4 or 6, the first; 0 in Write; owner: the "
               "department that writes the file";
    case 5:
        return "the length is 1,220 bytes and 24 for each record; place: the length of the "
               "file; owner: the department that writes the file";
    case 6:
        return "a cost rate is at most 1,000,000 millionths; place: the field; 0 in Write; "
               "owner: the insurer's cost sheet";
    case 7:
        return "a curve rate is -10,000 to 200,000 millionths; place: the field; 0 in Write; "
               "owner: the keeper of the supervisor's tables";
    case 8:
        return "a mortality is at most 1,000,000 millionths; place: the field; 0 in Write; "
               "owner: the keeper of the supervisor's tables";
    case 9:
        return "a head or next is at most the number of records; so is the number that Record "
               "is asked for, and it is not 0; place: the field; 0 in Record; owner: the "
               "portfolio department; in Record the caller";
    case 10:
        return "a linked record has its chain's code and sex, and zero in its spare bytes; "
               "place: the record's start; owner: the portfolio department";
    case 11:
        return "a chain's first class is at most 120, in Convert 121, in Write 121 for no "
               "records; each later class is one more; place: record + 2; 0 in Write; owner: "
               "the portfolio department";
    case 12:
        return "the count is at most 100,000, the lapse at most 1,000,000 millionths, premium "
               "and claims each at most 10,000,000 centimes; place: the field, the first; 0 in "
               "Write; owner: the portfolio department";
    case 13:
        return "a chain ends at class 120, in Convert at 121, and nowhere else; place: record "
               "+ 4; owner: the portfolio department";
    case 14:
        return "the setting is 0 to 7; place: 0; owner: the caller";
    case 15:
        return "the product group is 1 to 5; place: 0; owner: the caller";
    case 16:
        return "the buffer passed is long enough: 200 numbers for Group, 16 for Funds, the "
               "book's length for Convert, 41,876 bytes for Practice; place: 0; owner: the "
               "caller";
    case 17:
        return "amounts of accounts are at most 1,000,000,000 francs, a stock at most "
               "10,000,000 contracts; place: 0; owner: the insurer's cost sheet";
    case 18:
        return "no year's stock or claims add up to 0, and a group with something in any of "
               "three years has premium in each; place: 0; owner: the insurer's cost sheet";
    case 19:
        return "no cost rate out of the accounts is above 1,000,000 millionths; place: 0; "
               "owner: the insurer's cost sheet";
    case 20:
        return "the buffer passed for a listing or a year report is as long as the text; "
               "place: 0; owner: the caller";
    case 21:
        return "on age basis 2 no linked record has class 0; place: record + 2; owner: the "
               "portfolio department";
    case 22:
        return "the lists have the lengths that their chains ask, and what is to be filled is "
               "long enough; place: 0; owner: the caller";
    case 23:
        return "each mortality percentage of edition 2 is 1 to 100; place: 6 or 7, the first; "
               "0 in Write; owner: the department that writes the file";
    case 24:
        return "the table file has 1,164 bytes; place: 0; owner: the department that writes "
               "the file";
    case 25:
        return "the subgroup code is 1 to 7, the sex 0 or 1, and the buffer has at least 50 "
               "numbers; place: 0; owner: the caller";
    case 26:
        return "the chain of that code and sex has a record of that class; place: 0; owner: "
               "the caller";
    case 27:
        return "none of the five figures is below the one before it or above 10,000,000 "
               "centimes, and the highest is not 0; place: 0; owner: the portfolio department";
    case 28:
        return "the sample factors are numbers from 1/1,024 to 1,000; place: 0; owner: the "
               "keeper of the supervisor's tables";
    case 29:
        return "a coefficient is at most 1,000,000 millionths; the correlation is symmetric, "
               "1,000 on its diagonal and -1,000 to 1,000 elsewhere; place: 0; owner: the "
               "caller";
    case 30:
        return "no scaled factor is above 1,000,000 or below -1,000,000; place: 0; owner: the "
               "caller";
    case 31:
        return "the quadratic form is not negative; place: 0; owner: the caller";
    case 32:
        return "the start number is not 0; place: 0; owner: the caller";
    /* refusals: end */
    default:
        return "";
    }
}

#ifdef __cplusplus
}
#endif

#endif
