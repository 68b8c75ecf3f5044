/* Calls the archive from C on books, accounts and claims made here, and compares every reply with
 * figures worked by hand. */
#include <stdio.h>
#include <stdlib.h>
#include <string.h>

#include "xaropinto.h"

/* The header's constants, without their prefix. */
enum {
    HEADER_SIZE = XAROPINTO_HEADER_BYTES,
    RECORD_SIZE = XAROPINTO_RECORD_BYTES,
    MOST_RECORDS = XAROPINTO_MOST_RECORDS,
    CHAINS = XAROPINTO_CHAINS,
    LAST_CLASS = XAROPINTO_LAST_CLASS,
    SETTINGS = XAROPINTO_SETTINGS,
    PRODUCT_GROUPS = XAROPINTO_PRODUCT_GROUPS,
    RECORD_COUNT = XAROPINTO_RECORD_COUNT_AT,
    HEADS = XAROPINTO_HEADS_AT,
    COST_RATES = XAROPINTO_COST_RATES_AT,
    CURVE = XAROPINTO_CURVE_AT,
    MORTALITY = XAROPINTO_MORTALITY_AT,
    LAPSE = XAROPINTO_LAPSE_AT,
    /* the chain of PG2 men, counted from 0, and their product group */
    PG2_MEN = 6,
    PG2 = 2
};

/* The first number that 32 bits cannot hold. */
#define HIGH_BIT ((size_t)1 << 32)

/* ---- one line for each test, and the tally ---- */

static int passed, failed;

static void test(const char *name, int holds)
{
    printf("%s %s\n", holds ? "ok" : "FAILED", name);
    if (holds)
        passed++;
    else
        failed++;
}

/* ---- books ---- */

/* The bytes have just this length, so that a tool that watches memory sees a read past their end.
 */
typedef struct {
    uint8_t *bytes;
    size_t length;
} parameter_book;

typedef struct {
    unsigned count, lapse, premium, claims;
} contracts;

static void *exact_memory(size_t bytes)
{
    void *memory = malloc(bytes ? bytes : 1);
    if (!memory) {
        puts("0 passed, 1 failed");
        exit(1);
    }
    return memory;
}

static void put(parameter_book book, size_t at, size_t size, unsigned long number)
{
    for (size_t i = 0; i < size; i++)
        book.bytes[at + i] = (uint8_t)(number >> (8 * i));
}

static size_t record_start(size_t number)
{
    return HEADER_SIZE + RECORD_SIZE * (number - 1);
}

/* Zero in every byte. */
static parameter_book blank(size_t length)
{
    parameter_book book = {exact_memory(length), length};
    memset(book.bytes, 0, length);
    return book;
}

/* A valid header, all rates 0, all chains empty, and records that no chain reaches. */
static parameter_book unlinked_book(size_t records)
{
    parameter_book book = blank(record_start(records + 1));
    put(book, XAROPINTO_EDITION_AT, 1, 1);
    put(book, XAROPINTO_AGE_BASIS_AT, 1, 1);
    put(book, XAROPINTO_SST_YEAR_AT, 2, 2021);
    put(book, RECORD_COUNT, 2, records);
    return book;
}

static void put_record(parameter_book book, size_t number, size_t chain, size_t age_class,
                       contracts held)
{
    size_t start = record_start(number);
    put(book, start + XAROPINTO_CODE_AT, 1, chain / 2 + 1);
    put(book, start + XAROPINTO_SEX_AT, 1, chain % 2);
    put(book, start + XAROPINTO_CLASS_AT, 1, age_class);
    put(book, start + XAROPINTO_NEXT_AT, 2, age_class == LAST_CLASS ? 0 : number + 1);
    put(book, start + XAROPINTO_COUNT_AT, 4, held.count);
    put(book, start + LAPSE, 4, held.lapse);
    put(book, start + XAROPINTO_PREMIUM_AT, 4, held.premium);
    put(book, start + XAROPINTO_CLAIMS_AT, 4, held.claims);
}

/* The book behind the paper's listing: ten contracts of PG2 men at class 120. */
static parameter_book one_record_book(void)
{
    parameter_book book = unlinked_book(1);
    contracts ten = {10, 0, 100000, 80000};
    put(book, HEADS + 2 * PG2_MEN, 2, 1);
    put(book, COST_RATES + 4 * (PG2 - 1), 4, 100000);
    put_record(book, 1, PG2_MEN, LAST_CLASS, ten);
    return book;
}

/* One man of PG2 who meets these amounts in the years k = 0 to years - 1, and nothing from class
 * 120 on. */
static parameter_book one_man_book(size_t years, contracts each_year)
{
    parameter_book book = unlinked_book(years + 1);
    contracts nothing = {0, 0, 0, 0};
    put(book, HEADS + 2 * PG2_MEN, 2, 1);
    for (size_t k = 0; k < years; k++) {
        each_year.count = k == 0;
        put_record(book, k + 1, PG2_MEN, LAST_CLASS - years + k, each_year);
    }
    put_record(book, years + 1, PG2_MEN, LAST_CLASS, nothing);
    return book;
}

/* One man of PG2 at class 119, with premiums; in class 120 there are claims, and other deaths and
 * lapses. */
static parameter_book very_old_book(void)
{
    parameter_book book = unlinked_book(2);
    contracts one = {1, 200000, 10000000, 0}, last = {0, 50000, 0, 10000000};
    put(book, HEADS + 2 * PG2_MEN, 2, 1);
    put(book, MORTALITY + 4 * (LAST_CLASS - 1), 4, 500000);
    put(book, MORTALITY + 4 * LAST_CLASS, 4, 100000);
    put_record(book, 1, PG2_MEN, LAST_CLASS - 1, one);
    put_record(book, 2, PG2_MEN, LAST_CLASS, last);
    return book;
}

/* One man's book on age basis 2, with a record behind that no chain reaches and whose class is 0.
 */
static parameter_book one_man_newer_book(size_t years, contracts each_year)
{
    parameter_book older = one_man_book(years, each_year);
    parameter_book book = blank(older.length + RECORD_SIZE);
    memcpy(book.bytes, older.bytes, older.length);
    put(book, XAROPINTO_AGE_BASIS_AT, 1, 2);
    put(book, RECORD_COUNT, 2, years + 2);
    for (size_t i = 1; i <= years + 1; i++)
        book.bytes[record_start(i) + XAROPINTO_CLASS_AT]++;
    free(older.bytes);
    return book;
}

/* All 14 chains from class 0, everywhere one contract with claims of one centime; nobody dies or
 * leaves. */
static parameter_book full_book(void)
{
    parameter_book book = unlinked_book(MOST_RECORDS);
    contracts one = {1, 0, 0, 1};
    size_t number = 1;
    for (size_t chain = 0; chain < CHAINS; chain++) {
        put(book, HEADS + 2 * chain, 2, number);
        for (size_t age_class = 0; age_class <= LAST_CLASS; age_class++)
            put_record(book, number++, chain, age_class, one);
    }
    return book;
}

/* ---- year tables ---- */

enum { TABLE_SIZE = 300 };

static uint64_t mark(size_t number)
{
    return 0xA5A5A5A500000000u + number;
}

static uint64_t *marked_table(size_t numbers)
{
    uint64_t *table = exact_memory(numbers * sizeof *table);
    for (size_t i = 0; i < numbers; i++)
        table[i] = mark(i);
    return table;
}

static int marks_stand(const uint64_t *table, size_t from, size_t to)
{
    for (size_t i = from; i < to; i++)
        if (table[i] != mark(i))
            return 0;
    return 1;
}

/* ---- reports ---- */

/* Longer than any report's buffer, so that a byte written past the buffer shows. */
enum { YEARS = 50, MEMORY_SIZE = XAROPINTO_MOST_REPORT_BYTES + 100 };

/* The report of a book with contracts of PG2 alone: its figures in the first years, and nothing
 * later. */
static size_t pg2_report(char *text, const char *const *lines, size_t years)
{
    size_t length = (size_t)sprintf(text, "group,year,premium,outgo\n");
    for (size_t group = 1; group <= PRODUCT_GROUPS; group++)
        for (size_t k = 0; k < YEARS; k++)
            length += (size_t)sprintf(text + length, "%zu,%zu,%s\n", group, k,
                                      group == PG2 && k < years ? lines[k] : "0,0");
    return length;
}

static uint8_t *marked_memory(void)
{
    uint8_t *memory = exact_memory(MEMORY_SIZE);
    for (size_t i = 0; i < MEMORY_SIZE; i++)
        memory[i] = (uint8_t)(0xA5 ^ i);
    return memory;
}

static int bytes_stand(const uint8_t *memory, size_t from)
{
    for (size_t i = from; i < MEMORY_SIZE; i++)
        if (memory[i] != (uint8_t)(0xA5 ^ i))
            return 0;
    return 1;
}

/* ---- replies as they should be ---- */

static int verdict_is(parameter_book book, uint64_t refusal, uint64_t place, uint64_t n)
{
    xaropinto_verdict reply = xaropinto_check(book.bytes, book.length);
    return reply.refusal == refusal && reply.place == place && reply.n == n;
}

static int totals_are(parameter_book book, uint64_t n, const int64_t totals[8],
                      const int64_t differences[4])
{
    xaropinto_totals_reply reply = xaropinto_totals(book.bytes, book.length);
    return reply.refusal == 0 && reply.place == 0 && reply.n == n &&
           memcmp(reply.totals, totals, sizeof reply.totals) == 0 &&
           memcmp(reply.differences, differences, sizeof reply.differences) == 0;
}

static int totals_refused(parameter_book book, uint64_t refusal, uint64_t place)
{
    xaropinto_totals_reply reply = xaropinto_totals(book.bytes, book.length);
    xaropinto_totals_reply due = {refusal, place, 0, {0}, {0}};
    return memcmp(&reply, &due, sizeof due) == 0;
}

static int record_is(parameter_book book, size_t number, xaropinto_record_reply due)
{
    xaropinto_record_reply reply = xaropinto_record(book.bytes, book.length, number);
    return memcmp(&reply, &due, sizeof due) == 0;
}

static int group_is(parameter_book book, size_t setting, size_t group, int64_t liability,
                    uint64_t n)
{
    uint64_t *table = marked_table(XAROPINTO_TABLE_NUMBERS);
    xaropinto_group_reply reply =
        xaropinto_group(book.bytes, book.length, setting, group, table, XAROPINTO_TABLE_NUMBERS);
    free(table);
    return reply.refusal == 0 && reply.place == 0 && reply.liability == liability && reply.n == n;
}

/* The refusal is given, and of a table that has TABLE_SIZE numbers, not all of them passed, each is
 * as it was. */
static int group_refused(parameter_book book, size_t setting, size_t group, size_t numbers,
                         uint64_t refusal, uint64_t place)
{
    uint64_t *table = marked_table(TABLE_SIZE);
    xaropinto_group_reply reply =
        xaropinto_group(book.bytes, book.length, setting, group, table, numbers);
    xaropinto_group_reply due = {refusal, place, 0, 0};
    int holds = memcmp(&reply, &due, sizeof due) == 0 && marks_stand(table, 0, TABLE_SIZE);
    free(table);
    return holds;
}

enum { PREMIUM, OUTGO, DISCOUNTED_PREMIUM, DISCOUNTED_OUTGO };

/* One number of PG2's year table. */
static uint64_t table_number(parameter_book book, size_t setting, size_t k, size_t which)
{
    uint64_t *table = marked_table(XAROPINTO_TABLE_NUMBERS);
    xaropinto_group(book.bytes, book.length, setting, PG2, table, XAROPINTO_TABLE_NUMBERS);
    uint64_t number = table[4 * k + which];
    free(table);
    return number;
}

static int room_is_refused(parameter_book book, size_t setting, uint64_t refusal, uint64_t place)
{
    xaropinto_report_reply reply = xaropinto_report_room(book.bytes, book.length, setting);
    return reply.refusal == refusal && reply.place == place && reply.length == 0;
}

/* The refusal is given, and every byte is as it was, also those that are not passed. */
static int report_refused(parameter_book book, size_t setting, size_t bytes, uint64_t refusal,
                          uint64_t place)
{
    uint8_t *memory = marked_memory();
    xaropinto_report_reply reply =
        xaropinto_report(book.bytes, book.length, setting, memory, bytes);
    int holds = reply.refusal == refusal && reply.place == place && reply.length == 0 &&
                bytes_stand(memory, 0);
    free(memory);
    return holds;
}

/* The text is written, and every byte after it is as it was, also those that are not passed. */
static int report_written(parameter_book book, size_t setting, size_t bytes, const char *text,
                          size_t length)
{
    uint8_t *memory = marked_memory();
    xaropinto_report_reply reply =
        xaropinto_report(book.bytes, book.length, setting, memory, bytes);
    int holds = reply.refusal == 0 && reply.place == 0 && reply.length == length &&
                memcmp(memory, text, length) == 0 && bytes_stand(memory, length);
    free(memory);
    return holds;
}

/* The length given is that of the report of PG2's lines. A buffer of just so many bytes and one of
 * a byte more take the report; one of a byte less is refused. */
static int report_is(parameter_book book, size_t setting, const char *const *lines, size_t years)
{
    char *text = exact_memory(MEMORY_SIZE);
    size_t length = pg2_report(text, lines, years);
    xaropinto_report_reply size = xaropinto_report_room(book.bytes, book.length, setting);
    int holds = size.refusal == 0 && size.place == 0 && size.length == length &&
                report_refused(book, setting, length - 1, 20, 0) &&
                report_written(book, setting, length, text, length) &&
                report_written(book, setting, length + 1, text, length);
    free(text);
    return holds;
}

/* A buffer of the length given is the report and nothing else; its memory ends with it. */
static int cut_buffer_is_all_report(parameter_book book, size_t setting)
{
    size_t size = xaropinto_report_room(book.bytes, book.length, setting).length;
    uint8_t *cut = exact_memory(size);
    memset(cut, 0, size);
    xaropinto_report_reply reply = xaropinto_report(book.bytes, book.length, setting, cut, size);
    int holds = reply.refusal == 0 && reply.length == size && size > 0 && cut[size - 1] == '\n' &&
                memchr(cut, 0, size) == NULL;
    free(cut);
    return holds;
}

static int report_length_is(parameter_book book, size_t setting, size_t size)
{
    xaropinto_report_reply reply = xaropinto_report_room(book.bytes, book.length, setting);
    return reply.refusal == 0 && reply.place == 0 && reply.length == size;
}

/* The refusal is given, and the bytes passed are as they were. */
static int convert_refused(parameter_book book, size_t size, uint64_t refusal, uint64_t place)
{
    uint8_t *out = exact_memory(size);
    memset(out, 0xA5, size);
    xaropinto_verdict reply = xaropinto_convert(book.bytes, book.length, out, size);
    int holds = reply.refusal == refusal && reply.place == place && reply.n == 0;
    for (size_t i = 0; i < size; i++)
        holds &= out[i] == 0xA5;
    free(out);
    return holds;
}

/* The run of a cell of PG2 men begins like this; the other numbers of a longer memory are as they
 * were. */
static int in_force_begins(parameter_book book, size_t setting, size_t age_class,
                           const uint64_t *due, size_t years)
{
    uint64_t *memory = marked_table(TABLE_SIZE);
    xaropinto_in_force_reply reply =
        xaropinto_in_force(book.bytes, book.length, setting, PG2_MEN / 2 + 1, 0, age_class, memory,
                           XAROPINTO_IN_FORCE_NUMBERS);
    int holds = reply.refusal == 0 && reply.place == 0 &&
                memcmp(memory, due, years * sizeof *due) == 0 &&
                marks_stand(memory, XAROPINTO_IN_FORCE_NUMBERS, TABLE_SIZE);
    free(memory);
    return holds;
}

/* The refusal is given, and each number is as it was, also those that are not passed. */
static int in_force_refused(parameter_book book, const size_t asked[4], size_t numbers,
                            uint64_t refusal, uint64_t place)
{
    uint64_t *memory = marked_table(TABLE_SIZE);
    xaropinto_in_force_reply reply = xaropinto_in_force(book.bytes, book.length, asked[0], asked[1],
                                                        asked[2], asked[3], memory, numbers);
    int holds =
        reply.refusal == refusal && reply.place == place && marks_stand(memory, 0, TABLE_SIZE);
    free(memory);
    return holds;
}

/* ---- tests ---- */

static void test_sizes(void)
{
    test("replies_have_no_gaps",
         sizeof(xaropinto_verdict) == 24 && sizeof(xaropinto_group_reply) == 32 &&
             sizeof(xaropinto_totals_reply) == 120 && sizeof(xaropinto_record_reply) == 32 &&
             sizeof(xaropinto_cost_rates_reply) == 56 && sizeof(xaropinto_report_reply) == 24 &&
             sizeof(xaropinto_write_reply) == 24 && sizeof(xaropinto_read_reply) == 8 * 316 &&
             sizeof(xaropinto_in_force_reply) == 16);
    test("accounts_have_no_gaps", sizeof(xaropinto_accounts) == 48 * sizeof(uint64_t));
    test("values_have_no_gaps", sizeof(xaropinto_values) == 314 * sizeof(uint64_t));
    test("both_verdicts_have_no_gap",
         sizeof(xaropinto_funds_reply) == 2 * sizeof(xaropinto_verdict));
    test("summaries_and_spreads_have_no_gaps",
         sizeof(xaropinto_summary) == 5 * sizeof(uint64_t) && sizeof(xaropinto_spread_reply) == 40);
    test("a_risk_model_and_its_reply_have_no_gaps",
         sizeof(xaropinto_risk_model) == 20 * sizeof(uint64_t) &&
             sizeof(xaropinto_deviation_reply) == 24);
}

/* Premiums of 1,000,000 less claims of 800,000 and costs of 100,000, in fifty years. Settings 5, 6
 * and 7 have other costs or claims in five of them: 120,000, 80,000 and 840,000. */
static void test_one_record(void)
{
    static const int64_t totals[8] = {-5000000, -5000000, -5000000, -5000000,
                                      -5000000, -4900000, -5100000, -4800000};
    static const int64_t differences[4] = {0, 0, 200000, 200000};
    parameter_book book = one_record_book();
    int groups_hold = 1, empty_groups_hold = 1;
    for (size_t setting = 0; setting < SETTINGS; setting++)
        for (size_t group = 1; group <= PRODUCT_GROUPS; group++)
            if (group == PG2)
                groups_hold &= group_is(book, setting, group, totals[setting], 1);
            else
                empty_groups_hold &= group_is(book, setting, group, 0, 0);
    test("check_counts_the_record_with_contracts", verdict_is(book, 0, 0, 1));
    test("totals_are_those_of_the_listing", totals_are(book, 1, totals, differences));
    test("group_gives_the_listing_for_pg2", groups_hold);
    test("group_gives_nothing_for_the_other_groups", empty_groups_hold);
    free(book.bytes);
}

/* The contracts stay at class 120. From k = 5 on the cap, ten ninths of 900,000, is just the
 * premium. */
static void test_year_table(void)
{
    static const uint64_t year[4] = {1000000, 900000, 1000000, 900000};
    parameter_book book = one_record_book();
    uint64_t *table = marked_table(TABLE_SIZE);
    xaropinto_group(book.bytes, book.length, 0, PG2, table, TABLE_SIZE);
    int later_years = 1;
    for (size_t k = 1; k < XAROPINTO_TABLE_NUMBERS / 4; k++)
        later_years &= memcmp(table + 4 * k, year, sizeof year) == 0;
    test("year_0_has_premium_and_outgo_twice", memcmp(table, year, sizeof year) == 0);
    test("later_years_of_class_120_are_the_same", later_years);
    test("numbers_past_200_stay", marks_stand(table, XAROPINTO_TABLE_NUMBERS, TABLE_SIZE));
    free(table);
    free(book.bytes);
}

static void test_group_refusals(void)
{
    parameter_book book = one_record_book();
    parameter_book refused = one_record_book();
    put(refused, record_start(1) + LAPSE, 4, 1000001);
    test("setting_8_is_refused", group_refused(book, 8, PG2, TABLE_SIZE, 14, 0));
    test("setting_above_32_bits_is_refused", group_refused(book, HIGH_BIT, PG2, TABLE_SIZE, 14, 0));
    test("largest_setting_is_refused", group_refused(book, (size_t)-1, PG2, TABLE_SIZE, 14, 0));
    test("group_0_is_refused", group_refused(book, 0, 0, TABLE_SIZE, 15, 0));
    test("group_6_is_refused", group_refused(book, 0, 6, TABLE_SIZE, 15, 0));
    test("group_above_32_bits_is_refused",
         group_refused(book, 0, HIGH_BIT + PG2, TABLE_SIZE, 15, 0));
    test("table_of_199_numbers_is_refused", group_refused(book, 0, PG2, 199, 16, 0));
    test("table_of_no_numbers_is_refused", group_refused(book, 0, PG2, 0, 16, 0));
    test("refused_book_leaves_the_table", group_refused(refused, 0, PG2, TABLE_SIZE, 12, 1232));
    test("setting_comes_before_group_and_table_and_book", group_refused(refused, 8, 6, 0, 14, 0));
    test("group_comes_before_table_and_book", group_refused(refused, 7, 6, 0, 15, 0));
    test("table_comes_before_book", group_refused(refused, 7, 5, 199, 16, 0));
    free(refused.bytes);
    free(book.bytes);
}

static int all_calls_refuse(parameter_book book, uint64_t refusal, uint64_t place)
{
    xaropinto_record_reply due = {refusal, place, 0, 0};
    return verdict_is(book, refusal, place, 0) && totals_refused(book, refusal, place) &&
           record_is(book, 1, due) && group_refused(book, 0, PG2, TABLE_SIZE, refusal, place) &&
           room_is_refused(book, 0, refusal, place) &&
           report_refused(book, 0, MEMORY_SIZE, refusal, place) &&
           report_refused(book, 0, 0, refusal, place);
}

/* A book of this length whose header asks for so many records. */
static int length_is_refused(size_t length, size_t records, uint64_t refusal)
{
    parameter_book book = blank(length);
    parameter_book header = unlinked_book(0);
    memcpy(book.bytes, header.bytes, length < HEADER_SIZE ? length : (size_t)HEADER_SIZE);
    if (length >= HEADER_SIZE)
        put(book, RECORD_COUNT, 2, records);
    int holds = all_calls_refuse(book, refusal, length);
    free(header.bytes);
    free(book.bytes);
    return holds;
}

static void test_book_refusals(void)
{
    parameter_book zeros = blank(HEADER_SIZE);
    parameter_book lapse = one_record_book();
    parameter_book head = one_record_book();
    parameter_book rate = one_record_book();
    put(lapse, record_start(1) + LAPSE, 4, 1000001);
    put(head, HEADS, 2, 2);
    put(rate, CURVE, 4, 200001);
    test("no_bytes_are_refused", length_is_refused(0, 0, 1));
    test("too_few_bytes_are_refused", length_is_refused(1219, 0, 1));
    test("zero_bytes_are_refused_for_their_edition", all_calls_refuse(zeros, 2, 0));
    test("a_byte_too_many_is_refused", length_is_refused(1245, 1, 5));
    test("a_byte_too_few_is_refused", length_is_refused(1243, 1, 5));
    test("the_longest_read_of_a_file_is_refused",
         length_is_refused(XAROPINTO_LONGEST_BOOK + 1, MOST_RECORDS, 5));
    test("rate_200001_is_refused", all_calls_refuse(rate, 7, 56));
    test("head_above_n_is_refused", all_calls_refuse(head, 9, 8));
    test("lapse_above_one_is_refused", all_calls_refuse(lapse, 12, 1232));
    put(rate, CURVE, 4, 200000);
    test("rate_200000_passes", verdict_is(rate, 0, 0, 1));
    free(rate.bytes);
    free(head.bytes);
    free(lapse.bytes);
    free(zeros.bytes);
}

static void test_no_records(void)
{
    static const int64_t nothing[8] = {0};
    parameter_book book = unlinked_book(0);
    xaropinto_record_reply due = {9, 0, 0, 0};
    int groups_hold = 1;
    for (size_t group = 1; group <= PRODUCT_GROUPS; group++)
        groups_hold &= group_is(book, 0, group, 0, 0);
    test("no_records_are_accepted", verdict_is(book, 0, 0, 0));
    test("no_records_give_no_totals", totals_are(book, 0, nothing, nothing));
    test("no_records_give_no_liability", groups_hold);
    test("no_records_leave_none_to_look_at", record_is(book, 0, due) && record_is(book, 1, due));
    free(book.bytes);
}

static void test_record(void)
{
    parameter_book book = full_book();
    xaropinto_record_reply first = {0, 0, 1220, 24}, second = {0, 0, 1244, 24},
                           last = {0, 0, 41852, 24};
    xaropinto_record_reply none = {9, 0, 0, 0};
    test("record_1_starts_behind_the_tables", record_is(book, 1, first));
    test("record_2_starts_24_bytes_later", record_is(book, 2, second));
    test("record_1694_ends_the_book", record_is(book, MOST_RECORDS, last));
    test("record_0_is_refused", record_is(book, 0, none));
    test("record_1695_is_refused", record_is(book, MOST_RECORDS + 1, none));
    test("record_number_above_32_bits_is_refused", record_is(book, HIGH_BIT + 1, none));
    test("record_number_whose_start_overflows_is_refused",
         record_is(book, ((size_t)1 << 61) + 1, none));
    test("largest_record_number_is_refused", record_is(book, (size_t)-1, none));
    free(book.bytes);
}

/* A chain has 121 cells in each of fifty years: 6,050, times 14 chains. In setting 7 the five
 * percent of the first five years, rounded down by year and product group, are 5 times 36 for PG1
 * and 5 times 12 for each other group. */
static void test_full_book(void)
{
    static const int64_t totals[8] = {84700, 84700, 84700, 84700, 84700, 84700, 84700, 85120};
    static const int64_t differences[4] = {0, 0, 0, 420};
    parameter_book book = full_book();
    test("a_full_book_is_accepted",
         book.length == XAROPINTO_LONGEST_BOOK && verdict_is(book, 0, 0, MOST_RECORDS));
    test("a_full_book_has_its_totals", totals_are(book, MOST_RECORDS, totals, differences));
    test("pg1_has_six_chains",
         group_is(book, 0, 1, 36300, 726) && group_is(book, 7, 1, 36480, 726));
    test("pg5_has_two_chains",
         group_is(book, 0, 5, 12100, 242) && group_is(book, 7, 5, 12160, 242));
    free(book.bytes);
}

/* Year 0 and 0.913 times 0.9 of it; per contract 10,000,000 claims and 100,000 costs less 1,000,000
 * premium. Every setting but the base moves one of these: 0.8956 or 0.9304 live on, 0.87 or 0.93
 * stay, and so on. */
static void test_settings(void)
{
    static const int64_t totals[8] = {16577470, 16434964, 16719976, 16328221,
                                      16826719, 16613904, 16541036, 17488320};
    static const int64_t differences[4] = {-285012, -498498, 72868, 910850};
    contracts each_year = {0, 100000, 1000000, 10000000};
    parameter_book book = one_man_book(2, each_year);
    put(book, COST_RATES + 4 * (PG2 - 1), 4, 100000);
    put(book, MORTALITY + 4 * (LAST_CLASS - 2), 4, 100000);
    test("every_setting_and_difference_is_its_own", totals_are(book, 1, totals, differences));
    free(book.bytes);
}

/* Trial figures T1 and T2. */
static void test_discounting(void)
{
    contracts claims_of_99 = {0, 0, 0, 99}, claims_of_100 = {0, 0, 0, 100};
    parameter_book falling = one_man_book(2, claims_of_99);
    parameter_book rising = one_man_book(3, claims_of_100);
    put(falling, CURVE, 4, -10000UL);
    put(rising, CURVE + 4, 4, 10000);
    test("t1_99_a_year_back_at_minus_one_percent_is_100",
         table_number(falling, 0, 1, DISCOUNTED_OUTGO) == 100);
    test("t2_100_two_years_back_at_one_percent_is_98",
         table_number(rising, 0, 2, DISCOUNTED_OUTGO) == 98);
    free(falling.bytes);
    free(rising.bytes);
}

/* Trial figures T3 to T6. */
static void test_cap(void)
{
    contracts rich = {0, 0, 1001, 900}, rounded = {0, 0, 1000, 899}, no_outgo = {0, 0, 1001, 0};
    parameter_book book = one_man_book(6, rich);
    test("t3_cap_starts_in_the_sixth_year", table_number(book, 0, 5, PREMIUM) == 1000);
    test("t4_no_cap_in_the_fifth_year", table_number(book, 0, 4, PREMIUM) == 1001);
    free(book.bytes);
    book = one_man_book(6, rounded);
    test("t5_cap_is_rounded_down", table_number(book, 0, 5, PREMIUM) == 998);
    free(book.bytes);
    book = one_man_book(6, no_outgo);
    test("t6_no_outgo_leaves_no_premium", table_number(book, 0, 5, PREMIUM) == 0);
    free(book.bytes);
}

/* Trial figures T7 to T10: a premium of 10,000,000 shows what is in force, in hundreds of
 * billionths. */
static void test_in_force(void)
{
    contracts stays = {0, 0, 10000000, 10000000}, leaves = {0, 333333, 10000000, 10000000};
    parameter_book dying = one_man_book(3, stays);
    parameter_book leaving = one_man_book(3, leaves);
    for (size_t age_class = 0; age_class <= LAST_CLASS; age_class++)
        put(dying, MORTALITY + 4 * age_class, 4, 1000000);
    test("t7_mortality_weighs_870", table_number(dying, 0, 1, PREMIUM) == 1300000);
    test("t8_mortality_up_is_cut_to_one", table_number(dying, 1, 1, PREMIUM) == 0);
    test("t9_mortality_down_weighs_696", table_number(dying, 2, 1, PREMIUM) == 3040000);
    test("t10_lapse_is_rounded_each_year", table_number(leaving, 0, 1, PREMIUM) == 6666670 &&
                                               table_number(leaving, 0, 2, PREMIUM) == 4444448);
    free(dying.bytes);
    free(leaving.bytes);
}

/* Edition 2: half the men die in a year, three fifths in setting 1 and two fifths in setting 2;
 * women's 1 percent is not theirs. */
static void test_percentages(void)
{
    contracts stays = {0, 0, 10000000, 10000000};
    parameter_book book = one_man_book(8, stays);
    for (size_t age_class = 0; age_class <= LAST_CLASS; age_class++)
        put(book, MORTALITY + 4 * age_class, 4, 1000000);
    put(book, XAROPINTO_EDITION_AT, 1, 2);
    put(book, XAROPINTO_PERCENTAGES_AT, 1, 50);
    put(book, XAROPINTO_PERCENTAGES_AT + 1, 1, 101);
    test("percentage_101_of_women_is_23_at_7", all_calls_refuse(book, 23, 7));
    put(book, XAROPINTO_PERCENTAGES_AT, 1, 0);
    test("percentage_0_of_men_is_23_at_6", all_calls_refuse(book, 23, 6));
    put(book, XAROPINTO_PERCENTAGES_AT, 1, 50);
    put(book, XAROPINTO_PERCENTAGES_AT + 1, 1, 1);
    test("mortality_weighs_ten_times_the_percentage", table_number(book, 0, 1, PREMIUM) == 5000000);
    test("mortality_up_weighs_twelve_times", table_number(book, 1, 1, PREMIUM) == 4000000);
    test("mortality_down_weighs_eight_times", table_number(book, 2, 1, PREMIUM) == 6000000);
    /* 0.4 to the fifth and 0.6 to the fifth are left at k = 5, and half of that a year later. */
    test("mortality_up_ends_with_year_4",
         table_number(book, 1, 5, OUTGO) == 102400 && table_number(book, 1, 6, OUTGO) == 51200);
    test("mortality_down_ends_with_year_4",
         table_number(book, 2, 5, OUTGO) == 777600 && table_number(book, 2, 6, OUTGO) == 388800);
    put(book, XAROPINTO_EDITION_AT, 1, 1);
    test("edition_1_takes_no_percentages", all_calls_refuse(book, 4, 6));
    put(book, XAROPINTO_EDITION_AT, 1, 3);
    test("edition_3_is_refused", all_calls_refuse(book, 2, 0));
    free(book.bytes);
}

/* After a year 0.565 times 0.8 of the contract is left; then each year 0.913 times 0.95 of what
 * was. */
static void test_very_old(void)
{
    parameter_book book = very_old_book();
    test("class_119_pays_premiums", table_number(book, 0, 0, PREMIUM) == 10000000);
    test("class_120_has_its_own_amounts",
         table_number(book, 0, 1, PREMIUM) == 0 && table_number(book, 0, 1, OUTGO) == 4520000);
    test("class_120_has_its_own_rates_each_year",
         table_number(book, 0, 2, OUTGO) == 3920422 && table_number(book, 0, 3, OUTGO) == 3400378);
    test("class_120_stays_up_to_year_49", table_number(book, 0, 49, OUTGO) == 4880);
    free(book.bytes);
}

/* ---- accounts ---- */

/* Every group alike in every year, so that each has a fifth of the lowered expenses. */
static xaropinto_accounts even_accounts(uint64_t expenses, uint64_t premium)
{
    xaropinto_accounts accounts;
    for (size_t year = 0; year < XAROPINTO_ACCOUNT_YEARS; year++) {
        accounts.expenses[year] = expenses;
        for (size_t group = 0; group < PRODUCT_GROUPS; group++) {
            accounts.stock[year][group] = 10;
            accounts.claims[year][group] = 10;
            accounts.premium[year][group] = premium;
        }
    }
    return accounts;
}

/* The same without PG5, so that each other group has a quarter. */
static xaropinto_accounts accounts_without_pg5(uint64_t expenses, uint64_t premium)
{
    xaropinto_accounts accounts = even_accounts(expenses, premium);
    for (size_t year = 0; year < XAROPINTO_ACCOUNT_YEARS; year++)
        accounts.stock[year][4] = accounts.claims[year][4] = accounts.premium[year][4] = 0;
    return accounts;
}

static int rates_are(xaropinto_accounts accounts, const uint64_t rates[5])
{
    xaropinto_accounts before = accounts;
    xaropinto_cost_rates_reply reply = xaropinto_cost_rates(accounts);
    return reply.refusal == 0 && reply.place == 0 &&
           memcmp(reply.rates, rates, sizeof reply.rates) == 0 &&
           memcmp(&accounts, &before, sizeof before) == 0;
}

static int accounts_refused(xaropinto_accounts accounts, uint64_t refusal)
{
    xaropinto_cost_rates_reply reply = xaropinto_cost_rates(accounts);
    xaropinto_cost_rates_reply due = {refusal, 0, {0}};
    return memcmp(&reply, &due, sizeof due) == 0;
}

/* Of 1,000 francs 950 are left: 190 for each of five groups, or 237 for each of four. */
static void test_cost_rates(void)
{
    static const uint64_t fifths[5] = {190000, 190000, 190000, 190000, 190000};
    static const uint64_t quarters[5] = {237000, 237000, 237000, 237000, 0};
    static const uint64_t highest[5] = {1000000, 1000000, 1000000, 1000000, 1000000};
    /* PG1 has all claims: by stock 190, by claims 950, together 1,140 over 2,000 and for the others
     * 190 over 2,000. */
    static const uint64_t two_splits[5] = {570000, 95000, 95000, 95000, 95000};
    /* 190,000 in two years, and 380 over 2,002 in the third: 189,810. The mean is 189,936.67. */
    static const uint64_t three_years[5] = {190000, 189936, 190000, 190000, 190000};
    xaropinto_accounts split = even_accounts(1000, 1000), third = even_accounts(1000, 1000);
    for (size_t year = 0; year < XAROPINTO_ACCOUNT_YEARS; year++)
        for (size_t group = 1; group < PRODUCT_GROUPS; group++)
            split.claims[year][group] = 0;
    third.premium[2][1] = 1001;
    test("each_group_has_its_share_of_the_lowered_expenses",
         rates_are(even_accounts(1000, 1000), fifths));
    test("an_empty_group_has_rate_0", rates_are(accounts_without_pg5(1000, 1000), quarters));
    test("the_splits_by_stock_and_by_claims_are_averaged", rates_are(split, two_splits));
    test("the_three_years_are_averaged_and_rounded_down", rates_are(third, three_years));
    test("a_rate_of_1000000_passes", rates_are(even_accounts(1000, 190), highest));
}

static void test_cost_rate_refusals(void)
{
    xaropinto_accounts accounts = even_accounts(1000, 1000);
    accounts.expenses[2] = 1000000001;
    test("an_amount_above_its_limit_is_refused", accounts_refused(accounts, 17));
    accounts.claims[0][0] = (uint64_t)-1;
    accounts.stock[1][0] = 0;
    accounts.premium[1][1] = 0;
    test("a_limit_comes_before_premium_zero", accounts_refused(accounts, 17));
    accounts = even_accounts(1000, 1000);
    accounts.stock[2][4] = 10000001;
    test("a_stock_above_its_limit_is_refused", accounts_refused(accounts, 17));
    accounts = even_accounts(1000, 1);
    memset(accounts.claims[1], 0, sizeof accounts.claims[1]);
    test("a_year_without_claims_is_refused_before_a_high_rate", accounts_refused(accounts, 18));
    accounts = accounts_without_pg5(1000, 1000);
    accounts.premium[0][4] = 1;
    test("a_group_with_premium_in_one_year_alone_is_refused", accounts_refused(accounts, 18));
    /* 380 x 1,000,000 / 378 is 1,005,291 in each year */
    test("a_rate_above_1000000_is_refused", accounts_refused(even_accounts(1000, 189), 19));
}

/* A report of the paper's book: a line for each of the first five years, another for each of the 45
 * after them. */
static int one_record_report_is(size_t setting, const char *first, const char *later)
{
    enum { YEARS = XAROPINTO_TABLE_NUMBERS / 4 };
    parameter_book book = one_record_book();
    const char *lines[YEARS];
    for (size_t k = 0; k < YEARS; k++)
        lines[k] = k < 5 ? first : later;
    int holds = report_is(book, setting, lines, YEARS);
    free(book.bytes);
    return holds;
}

/* Ten premiums of 100,000; claims of 800,000, in setting 7 a twentieth more; costs of a tenth of
 * the premiums, in setting 5 a fifth more. Then trial figures T3 and T4, in six years. */
static void test_report(void)
{
    static const char base[] = "1000000,900000", costs_up[] = "1000000,920000",
                      claims_up[] = "1000000,940000";
    static const char *const capped[] = {"1001,900", "1001,900", "1001,900",
                                         "1001,900", "1001,900", "1000,900"};
    contracts rich = {0, 0, 1001, 900};
    parameter_book none = unlinked_book(0);
    parameter_book six_years = one_man_book(6, rich);
    test("a_report_without_records_is_all_zeros", report_is(none, 0, NULL, 0));
    test("a_report_has_premium_and_outgo_of_pg2", one_record_report_is(0, base, base));
    test("a_report_goes_by_its_setting",
         one_record_report_is(5, costs_up, base) && one_record_report_is(7, claims_up, base));
    test("a_report_has_the_premium_after_the_cap", report_is(six_years, 0, capped, 6));
    /* The heading has 25 bytes; in each group ten lines of two noughts have 8 bytes and forty 9. */
    test("the_room_without_figures", report_length_is(none, 0, 25 + 5 * (10 * 8 + 40 * 9)));
    /* 1001 and 1000 have three digits more than a nought, 900 two. */
    test("the_room_with_figures_in_six_lines", report_length_is(six_years, 0, 2225 + 6 * (3 + 2)));
    test("a_buffer_cut_to_the_room_is_all_report", cut_buffer_is_all_report(six_years, 0));
    free(six_years.bytes);
    free(none.bytes);
}

static void test_report_refusals(void)
{
    parameter_book book = one_record_book();
    parameter_book refused = one_record_book();
    put(refused, record_start(1) + LAPSE, 4, 1000001);
    test("report_in_setting_8_is_refused",
         report_refused(book, 8, MEMORY_SIZE, 14, 0) && room_is_refused(book, 8, 14, 0));
    test("report_in_a_setting_above_32_bits_is_refused",
         report_refused(book, HIGH_BIT, MEMORY_SIZE, 14, 0) &&
             room_is_refused(book, HIGH_BIT, 14, 0));
    test("report_into_no_bytes_is_refused", report_refused(book, 0, 0, 20, 0));
    test("setting_comes_before_book_and_buffer", report_refused(refused, 8, 0, 14, 0));
    test("book_comes_before_buffer", report_refused(refused, 7, 0, 12, 1232));
    free(refused.bytes);
    free(book.bytes);
}

/* Two classes of one man, 120 and 121 on basis 2, so 119 and 120 on basis 1. */
static void test_convert(void)
{
    contracts each_year = {0, 0, 1000, 900};
    parameter_book book = one_man_newer_book(1, each_year);
    size_t size = book.length + 7, same = 0;
    uint8_t *out = exact_memory(size);
    memset(out, 0xA5, size);
    xaropinto_verdict reply = xaropinto_convert(book.bytes, book.length, out, size);
    parameter_book converted = {out, book.length}, zeros = blank(HEADER_SIZE);
    for (size_t i = 0; i < book.length; i++)
        same += out[i] == book.bytes[i];
    test("convert_counts_as_before", reply.refusal == 0 && reply.place == 0 && reply.n == 1);
    test("the_age_basis_becomes_1", out[1] == 1);
    test("linked_classes_fall_by_one", out[1222] == 119 && out[1246] == 120);
    test("all_other_bytes_are_copied", same == book.length - 3);
    test("the_converted_book_passes_the_check", verdict_is(converted, 0, 0, 1));
    test("bytes_past_the_book_stay", out[book.length] == 0xA5 && out[size - 1] == 0xA5);
    test("a_buffer_one_byte_short_is_refused", convert_refused(book, book.length - 1, 16, 0));
    test("a_short_buffer_comes_before_the_book", convert_refused(zeros, 0, 16, 0));
    test("basis_1_is_not_converted", convert_refused(converted, book.length, 3, 1));
    put(book, record_start(2) + XAROPINTO_NEXT_AT, 2, 3);
    test("a_chain_ends_at_class_121", convert_refused(book, size, 13, 1248));
    put(book, record_start(2) + XAROPINTO_CLASS_AT, 1, 0);
    test("class_0_is_refused_before_a_wrong_class", convert_refused(book, size, 21, 1246));
    put(book, record_start(2) + XAROPINTO_SEX_AT, 1, 1);
    test("sex_comes_before_class_0", convert_refused(book, size, 10, 1244));
    free(zeros.bytes);
    free(out);
    free(book.bytes);
}

/* ---- values and lists, written and read ---- */

enum { LISTS = 4, LIST_SIZE = 8, OUT_SIZE = 1300 };

/* Four lists of so many numbers each. */
typedef struct {
    uint64_t numbers[LISTS][LIST_SIZE];
    size_t length[LISTS];
} lists;

/* The paper's book: ten contracts of PG2 men at class 120. */
static xaropinto_values one_record_values(void)
{
    xaropinto_values values;
    memset(&values, 0, sizeof values);
    values.edition = 1;
    values.year = 2021;
    values.cost_rates[PG2 - 1] = 100000;
    for (size_t chain = 0; chain < CHAINS; chain++)
        values.first_classes[chain] = chain == PG2_MEN ? LAST_CLASS : XAROPINTO_NO_CLASS;
    return values;
}

static lists one_record_lists(void)
{
    lists held = {{{10}, {0}, {100000}, {80000}}, {1, 1, 1, 1}};
    return held;
}

static xaropinto_write_reply write_into(uint8_t *out, size_t size, xaropinto_values values,
                                        const lists *held)
{
    return xaropinto_write(values, held->numbers[0], held->length[0], held->numbers[1],
                           held->length[1], held->numbers[2], held->length[2], held->numbers[3],
                           held->length[3], out, size);
}

static xaropinto_read_reply read_into(lists *filled, parameter_book book)
{
    return xaropinto_read(book.bytes, book.length, filled->numbers[0], filled->length[0],
                          filled->numbers[1], filled->length[1], filled->numbers[2],
                          filled->length[2], filled->numbers[3], filled->length[3]);
}

/* The refusal is given with place 0, and every byte is as it was. */
static int write_refused(xaropinto_values values, lists held, size_t size, uint64_t refusal)
{
    uint8_t out[OUT_SIZE];
    memset(out, 0xA5, sizeof out);
    xaropinto_write_reply reply = write_into(out, size, values, &held), due = {refusal, 0, 0};
    int holds = memcmp(&reply, &due, sizeof due) == 0;
    for (size_t i = 0; i < sizeof out; i++)
        holds &= out[i] == 0xA5;
    return holds;
}

static void test_write(void)
{
    uint8_t out[OUT_SIZE];
    parameter_book book = one_record_book();
    lists held = one_record_lists();
    memset(out, 0xA5, sizeof out);
    xaropinto_write_reply reply = write_into(out, sizeof out, one_record_values(), &held);
    test("the_papers_book_is_written", reply.refusal == 0 && reply.place == 0 &&
                                           reply.length == 1244 &&
                                           memcmp(out, book.bytes, book.length) == 0);
    int later = 1;
    for (size_t i = book.length; i < sizeof out; i++)
        later &= out[i] == 0xA5;
    test("bytes_past_the_book_stay", later);
    free(book.bytes);
}

/* Two chains: PG1a men of classes 119 and 120, PG1a women of class 120; a rate of -1 for k = 49. */
static void test_links(void)
{
    uint8_t out[OUT_SIZE];
    xaropinto_values values = one_record_values();
    lists held = {{{1, 2, 3}, {4, 5, 6}, {7, 8, 9}, {10, 11, 12}}, {3, 3, 3, 3}};
    values.first_classes[PG2_MEN] = XAROPINTO_NO_CLASS;
    values.first_classes[0] = LAST_CLASS - 1;
    values.first_classes[1] = LAST_CLASS;
    values.curve[48] = -1;
    xaropinto_write_reply reply = write_into(out, sizeof out, values, &held);
    test("three_records_are_written", reply.refusal == 0 && reply.length == record_start(4));
    test("heads_are_1_and_3_and_no_others",
         out[HEADS] == 1 && out[HEADS + 2] == 3 && out[HEADS + 4] == 0);
    test("next_is_one_higher_but_a_chains_last",
         out[record_start(1) + XAROPINTO_NEXT_AT] == 2 &&
             out[record_start(2) + XAROPINTO_NEXT_AT] == 0 &&
             out[record_start(3) + XAROPINTO_NEXT_AT] == 0);
    test("classes_rise_in_each_chain", out[record_start(1) + XAROPINTO_CLASS_AT] == 119 &&
                                           out[record_start(2) + XAROPINTO_CLASS_AT] == 120 &&
                                           out[record_start(3) + XAROPINTO_CLASS_AT] == 120);
    test("lists_go_chain_by_chain", out[record_start(2) + XAROPINTO_COUNT_AT] == 2 &&
                                        out[record_start(3) + XAROPINTO_PREMIUM_AT] == 9 &&
                                        out[record_start(3) + XAROPINTO_CLAIMS_AT] == 12);
    test("minus_one_is_four_bytes_of_255", memcmp(out + MORTALITY - 4, "\377\377\377\377", 4) == 0);
}

static void test_write_refusals(void)
{
    xaropinto_values good = one_record_values(), values = good;
    lists held = one_record_lists(), broken = held;
    values.mortality[241] = 1000001;
    broken.numbers[3][0] = 10000001;
    test("claims_too_large_are_12", write_refused(good, broken, OUT_SIZE, 12));
    test("mortality_comes_before_the_lists", write_refused(values, broken, OUT_SIZE, 8));
    values.curve[0] = -10001;
    test("curve_comes_before_mortality", write_refused(values, broken, OUT_SIZE, 7));
    values.cost_rates[4] = HIGH_BIT;
    test("cost_rate_above_32_bits_is_6", write_refused(values, broken, OUT_SIZE, 6));
    values.edition = 2;
    values.percentages[0] = 100;
    test("percentage_0_of_women_is_23", write_refused(values, broken, OUT_SIZE, 23));
    values.edition = 1;
    test("percentage_in_edition_1_is_4", write_refused(values, broken, OUT_SIZE, 4));
    values.edition = 2;
    values.year = 65536 + 2021;
    test("year_above_16_bits_is_4", write_refused(values, broken, OUT_SIZE, 4));
    values.edition = 256 + 2;
    test("edition_above_8_bits_is_2", write_refused(values, broken, OUT_SIZE, 2));
    test("a_byte_too_few_is_22", write_refused(values, broken, 1243, 22));
    broken.length[1] = 2;
    test("a_longer_list_is_22", write_refused(values, broken, OUT_SIZE, 22));
    broken.length[1] = 0;
    test("a_shorter_list_is_22", write_refused(values, broken, OUT_SIZE, 22));
    values.first_classes[13] = XAROPINTO_NO_CLASS + 1;
    test("first_class_122_is_11", write_refused(values, broken, 0, 11));
}

static void test_read(void)
{
    parameter_book book = one_record_book();
    xaropinto_values values = one_record_values();
    lists held = one_record_lists(), filled;
    for (size_t kind = 0; kind < LISTS; kind++) {
        filled.length[kind] = LIST_SIZE;
        for (size_t i = 0; i < LIST_SIZE; i++)
            filled.numbers[kind][i] = mark(i);
    }
    lists untouched = filled;
    filled.length[2] = 0;
    xaropinto_read_reply reply = read_into(&filled, book),
                         refused = {22, 0, {0, {0}, 0, {0}, {0}, {0}, {0}}};
    filled.length[2] = LIST_SIZE;
    test("a_list_without_room_is_22_and_fills_nothing",
         memcmp(&reply, &refused, sizeof reply) == 0 &&
             memcmp(&filled, &untouched, sizeof filled) == 0);
    reply = read_into(&filled, book);
    int lists_hold = 1;
    for (size_t kind = 0; kind < LISTS; kind++)
        lists_hold &= filled.numbers[kind][0] == held.numbers[kind][0] &&
                      marks_stand(filled.numbers[kind], 1, LIST_SIZE);
    test("the_papers_book_is_read", reply.refusal == 0 && reply.place == 0 &&
                                        memcmp(&reply.values, &values, sizeof values) == 0);
    test("numbers_past_the_lists_stay", lists_hold);
    free(book.bytes);
}

/* ---- two funds on the same tables ---- */

enum {
    FRONT = XAROPINTO_FUND_FRONT_BYTES,
    TABLE_FILE = XAROPINTO_TABLE_FILE_BYTES,
    NUMBERS_PASSED = XAROPINTO_FUNDS_NUMBERS
};

/* A book's fund file: all but its tables. */
static parameter_book fund_of(parameter_book book)
{
    parameter_book fund = blank(book.length - TABLE_FILE);
    memcpy(fund.bytes, book.bytes, FRONT);
    memcpy(fund.bytes + FRONT, book.bytes + HEADER_SIZE, book.length - HEADER_SIZE);
    return fund;
}

/* A table file of zeros, and memory of more numbers than are passed. */
typedef struct {
    uint8_t table[TABLE_FILE];
    size_t table_length, count;
    int64_t numbers[NUMBERS_PASSED + 4];
} funds_memory;

static funds_memory marked_funds(void)
{
    funds_memory memory;
    memset(&memory, 0, sizeof memory);
    memory.table_length = TABLE_FILE;
    memory.count = NUMBERS_PASSED;
    for (size_t i = 0; i < NUMBERS_PASSED + 4; i++)
        memory.numbers[i] = -1000000007 - (int64_t)i;
    return memory;
}

static int numbers_stand(const funds_memory *memory, size_t from, size_t to)
{
    funds_memory marked = marked_funds();
    return memcmp(memory->numbers + from, marked.numbers + from,
                  (to - from) * sizeof *memory->numbers) == 0;
}

static int fund_is(xaropinto_verdict verdict, uint64_t refusal, uint64_t place, uint64_t n)
{
    return verdict.refusal == refusal && verdict.place == place && verdict.n == n;
}

static xaropinto_funds_reply value_funds(funds_memory *memory, parameter_book first,
                                         parameter_book second)
{
    return xaropinto_funds(memory->table, memory->table_length, first.bytes, first.length,
                           second.bytes, second.length, memory->numbers, memory->count);
}

/* Both funds are refused alike, and no number changes. */
static int both_refused(funds_memory memory, parameter_book first, parameter_book second,
                        uint64_t refusal)
{
    xaropinto_funds_reply reply = value_funds(&memory, first, second);
    return fund_is(reply.first, refusal, 0, 0) && fund_is(reply.second, refusal, 0, 0) &&
           numbers_stand(&memory, 0, NUMBERS_PASSED + 4);
}

/* The paper's book, and one man of PG2 with claims of a franc in each of two years; in setting 7 a
 * twentieth more. */
static void test_funds(void)
{
    static const int64_t papers[] = {-5000000, -5000000, -5000000, -5000000,
                                     -5000000, -4900000, -5100000, -4800000};
    static const int64_t mans[] = {200, 200, 200, 200, 200, 200, 200, 210};
    contracts franc = {0, 0, 0, 100};
    parameter_book book = one_record_book(), man_book = one_man_book(2, franc);
    parameter_book fund = fund_of(book), man = fund_of(man_book);
    funds_memory memory = marked_funds();
    xaropinto_funds_reply reply = value_funds(&memory, fund, man);
    test("both_funds_have_their_n",
         fund_is(reply.first, 0, 0, 1) && fund_is(reply.second, 0, 0, 1));
    test("the_first_fund_has_numbers_0_to_7", memcmp(memory.numbers, papers, sizeof papers) == 0);
    test("the_second_fund_has_numbers_8_to_15", memcmp(memory.numbers + 8, mans, sizeof mans) == 0);
    test("numbers_from_16_on_stay", numbers_stand(&memory, NUMBERS_PASSED, NUMBERS_PASSED + 4));
    put(fund, FRONT + LAPSE, 4, 1000001);
    memory = marked_funds();
    reply = value_funds(&memory, fund, man);
    test("a_refused_fund_is_placed_in_its_joined_book", fund_is(reply.first, 12, 1232, 0));
    test("a_refused_funds_numbers_stay", numbers_stand(&memory, 0, 8));
    test("a_refused_first_fund_does_not_stop_the_second",
         fund_is(reply.second, 0, 0, 1) && memcmp(memory.numbers + 8, mans, sizeof mans) == 0);
    memory = marked_funds();
    memory.table_length--;
    test("a_table_file_of_1163_bytes_refuses_both", both_refused(memory, fund, man, 24));
    memory.count--;
    test("fifteen_numbers_come_before_the_table_file", both_refused(memory, fund, man, 16));
    free(man.bytes);
    free(fund.bytes);
    free(man_book.bytes);
    free(book.bytes);
}

/* The same bytes, cut or followed by zeros, in memory of just this length. */
static parameter_book resized(parameter_book file, size_t length)
{
    parameter_book other = blank(length);
    memcpy(other.bytes, file.bytes, length < file.length ? length : file.length);
    return other;
}

/* A file of this length that begins as the paper's fund, beside that fund: what it is refused for.
 */
static int file_refused(size_t length, uint8_t edition, uint64_t refusal, uint64_t place)
{
    parameter_book book = one_record_book(), fund = fund_of(book), file = resized(fund, length);
    funds_memory memory = marked_funds();
    if (length > 0)
        file.bytes[0] = edition;
    xaropinto_funds_reply reply = value_funds(&memory, fund, file);
    int holds = fund_is(reply.first, 0, 0, 1) && fund_is(reply.second, refusal, place, 0) &&
                numbers_stand(&memory, 8, NUMBERS_PASSED + 4);
    free(file.bytes);
    free(fund.bytes);
    free(book.bytes);
    return holds;
}

static void test_fund_files(void)
{
    size_t longest = XAROPINTO_LONGEST_BOOK - TABLE_FILE;
    test("an_empty_file_is_placed_at_0", file_refused(0, 1, 1, 0));
    test("a_file_of_55_bytes_is_placed_at_its_own_length", file_refused(55, 1, 1, 55));
    test("a_file_of_56_bytes_is_placed_at_the_joined_length", file_refused(56, 1, 5, 1220));
    test("so_is_one_longer_than_any_book", file_refused(longest + 1, 1, 5, 41877));
    test("so_is_one_of_twice_the_longest_book",
         file_refused(2 * XAROPINTO_LONGEST_BOOK, 1, 5, 84916));
    test("a_long_files_header_is_tested_first", file_refused(longest + 1, 3, 2, 0));
}

/* One cell on the screen: 0.565 x 0.8 of the contract is left after a year, then each year 0.913 x
 * 0.95 of what was. */
static void test_one_cell(void)
{
    static const uint64_t old[4] = {1000000000, 452000000, 392042200, 340037801};
    /* lapse up: 0.565 x 0.74, then 0.913 x 0.935 */
    static const uint64_t leaving[3] = {1000000000, 418100000, 356913155};
    static const uint64_t none[XAROPINTO_IN_FORCE_NUMBERS] = {0};
    uint64_t ten[XAROPINTO_IN_FORCE_NUMBERS];
    for (size_t k = 0; k < XAROPINTO_IN_FORCE_NUMBERS; k++)
        ten[k] = 10000000000u;
    parameter_book book = very_old_book(), one = one_record_book();
    test("in_force_from_year_0_and_on_at_class_120",
         in_force_begins(book, 0, LAST_CLASS - 1, old, 4));
    test("in_force_goes_by_the_setting", in_force_begins(book, 3, LAST_CLASS - 1, leaving, 3));
    test("in_force_of_no_contracts",
         in_force_begins(book, 0, LAST_CLASS, none, XAROPINTO_IN_FORCE_NUMBERS));
    test("in_force_of_all_fifty_years",
         in_force_begins(one, 7, LAST_CLASS, ten, XAROPINTO_IN_FORCE_NUMBERS));
    free(book.bytes);
    free(one.bytes);
}

static void test_one_cell_refusals(void)
{
    parameter_book book = very_old_book(), zeros = blank(HEADER_SIZE);
    size_t all = XAROPINTO_IN_FORCE_NUMBERS;
    const size_t setting[4] = {8, 0, 2, 121}, no_code[4] = {0, 0, 0, 119},
                 code_8[4] = {0, 8, 0, 119};
    const size_t high_code[4] = {0, HIGH_BIT + 4, 0, 119}, sex_2[4] = {0, 4, 2, 119},
                 held[4] = {0, 4, 0, 119};
    const size_t below[4] = {0, 4, 0, 118}, above[4] = {0, 4, 0, 121},
                 high[4] = {0, 4, 0, HIGH_BIT + 119};
    const size_t women[4] = {0, 4, 1, 119};
    test("in_force_14_comes_first", in_force_refused(zeros, setting, 0, 14, 0));
    test("in_force_code_out_of_range", in_force_refused(zeros, no_code, all, 25, 0) &&
                                           in_force_refused(zeros, code_8, all, 25, 0) &&
                                           in_force_refused(zeros, high_code, all, 25, 0));
    test("in_force_sex_out_of_range", in_force_refused(zeros, sex_2, all, 25, 0));
    test("in_force_under_50_numbers",
         in_force_refused(zeros, held, all - 1, 25, 0) && in_force_refused(book, held, 0, 25, 0));
    test("in_force_book_before_26", in_force_refused(zeros, above, all, 2, 0));
    test("in_force_chain_has_no_such_class", in_force_refused(book, below, all, 26, 0) &&
                                                 in_force_refused(book, above, all, 26, 0) &&
                                                 in_force_refused(book, high, all, 26, 0));
    test("in_force_chain_is_empty", in_force_refused(book, women, all, 26, 0));
    free(book.bytes);
    free(zeros.bytes);
}

/* ---- the spread of yearly claims ---- */

/* Bit for bit: zeros of either sign differ. */
static int spread_is(xaropinto_summary claims, double xi, double eta, uint64_t level, double mean,
                     double coefficient)
{
    xaropinto_summary before = claims;
    xaropinto_spread_reply reply = xaropinto_spread(claims, xi, eta),
                           due = {0, 0, level, mean, coefficient};
    return memcmp(&reply, &due, sizeof due) == 0 && memcmp(&claims, &before, sizeof before) == 0;
}

static int spread_refused(xaropinto_summary claims, double xi, double eta, uint64_t refusal)
{
    xaropinto_spread_reply reply = xaropinto_spread(claims, xi, eta),
                           due = {refusal, 0, 0, 0.0, 0.0};
    return memcmp(&reply, &due, sizeof due) == 0;
}

/* The example of docs/WORKED_EXAMPLES.md; 1,600 / 8, and half of 400 / 2 and 200 / 4, which is 125;
 * half of 1 x 1,024 over 1 / 8. */
static void test_spread(void)
{
    xaropinto_summary worked = {152340, 158910, 163275, 169480, 181205},
                      even = {0, 100, 200, 300, 400};
    xaropinto_summary level = {7, 7, 7, 7, 7}, least = {0, 0, 0, 0, 1};
    test("the_worked_claims_have_their_spread",
         spread_is(worked, 2.847, 1.119, 0, 164609.375, 0.05948833839363393));
    test("five_even_steps_have_an_exact_coefficient", spread_is(even, 2.0, 4.0, 0, 200.0, 0.625));
    test("the_least_factors_are_taken", spread_is(least, 1.0 / 1024, 1.0 / 1024, 0, 0.125, 4096.0));
    test("level_claims_have_a_mean_alone", spread_is(level, 1000.0, 1000.0, 1, 7.0, 0.0));
}

static void test_spread_refusals(void)
{
    xaropinto_summary even = {0, 100, 200, 300, 400}, falling = {0, 100, 200, 300, 299},
                      none = {0, 0, 0, 0, 0};
    xaropinto_summary level = {7, 7, 7, 7, 7}, high = {0, 0, 0, 0, 10000001},
                      wide = {0, 0, 0, 0, (uint64_t)1 << 63};
    double zero = 0.0, not_a_number, infinity;
    const uint64_t bits_of_nan = 0x7FF8000000000000, bits_of_infinity = 0x7FF0000000000000;
    memcpy(&not_a_number, &bits_of_nan, sizeof not_a_number);
    memcpy(&infinity, &bits_of_infinity, sizeof infinity);
    test("claims_that_fall_are_refused", spread_refused(falling, 2.0, 4.0, 27));
    test("claims_above_their_limit_are_refused",
         spread_refused(high, 2.0, 4.0, 27) && spread_refused(wide, 2.0, 4.0, 27));
    test("claims_of_nothing_are_refused_before_factors",
         spread_refused(none, not_a_number, zero, 27));
    test("not_a_number_is_refused_before_level", spread_refused(level, not_a_number, 4.0, 28) &&
                                                     spread_refused(even, 2.0, not_a_number, 28));
    test("zeros_are_refused",
         spread_refused(even, zero, 4.0, 28) && spread_refused(even, -zero, 4.0, 28));
    test("infinities_are_refused",
         spread_refused(even, 2.0, infinity, 28) && spread_refused(even, 2.0, -infinity, 28));
    test("factors_past_their_ends_are_refused",
         spread_refused(even, 0.00097656249999999989, 4.0, 28) &&
             spread_refused(even, 2.0, 1000.0000000000001, 28));
}

/* ---- the deviation of four factors ---- */

/* 100,000 men of PG2: premiums of 5,000,000 at k = 0, all of them costs; half lapse; claims of
 * 2,000,010 at k = 1. In thousand francs the differences of lapse, costs and claims are -0.3 x
 * 2,000,010, 0.4 x 5,000,000 and 50,000.25. */
static parameter_book risk_book(void)
{
    parameter_book book = unlinked_book(3);
    contracts paid = {100000, 500000, 5000000, 0}, claimed = {0, 500000, 0, 2000010},
              nothing = {0, 0, 0, 0};
    put(book, HEADS + 2 * PG2_MEN, 2, 1);
    put(book, COST_RATES + 4 * (PG2 - 1), 4, 1000000);
    put_record(book, 1, PG2_MEN, LAST_CLASS - 2, paid);
    put_record(book, 2, PG2_MEN, LAST_CLASS - 1, claimed);
    put_record(book, 3, PG2_MEN, LAST_CLASS, nothing);
    return book;
}

/* Factors of -1,000,000, 1,000,000 and 1,000,000 in that book, and of 0 for mortality: 600,003 x
 * 999,996 / 600,000 is 1,000,000.99. Each two of the three have this correlation, lapse its
 * opposite. */
static xaropinto_risk_model three_factors(int64_t correlation)
{
    static const uint64_t coefficients[XAROPINTO_FACTORS] = {0, 999996, 200000, 1000000};
    xaropinto_risk_model model;
    memset(&model, 0, sizeof model);
    memcpy(model.coefficients, coefficients, sizeof coefficients);
    for (size_t i = 0; i < XAROPINTO_FACTORS; i++)
        model.correlation[i][i] = 1000;
    model.correlation[1][2] = model.correlation[2][1] = -correlation;
    model.correlation[1][3] = model.correlation[3][1] = -correlation;
    model.correlation[2][3] = model.correlation[3][2] = correlation;
    return model;
}

/* The whole reply; the book and the caller's model are as they were. */
static int deviation_is(parameter_book book, xaropinto_risk_model model, uint64_t refusal,
                        uint64_t place, uint64_t deviation)
{
    xaropinto_risk_model before = model;
    uint8_t *bytes = exact_memory(book.length);
    memcpy(bytes, book.bytes, book.length);
    xaropinto_deviation_reply reply = xaropinto_deviation(book.bytes, book.length, model),
                              due = {refusal, place, deviation};
    int holds = memcmp(&reply, &due, sizeof due) == 0 &&
                memcmp(&model, &before, sizeof before) == 0 &&
                memcmp(bytes, book.bytes, book.length) == 0;
    free(bytes);
    return holds;
}

static void test_deviation(void)
{
    parameter_book book = risk_book(), none = unlinked_book(0);
    xaropinto_risk_model model = three_factors(0);
    /* the root of 3 x 10^12 is 1,732,050.8 */
    test("three_factors_without_correlation", deviation_is(book, model, 0, 0, 1732050));
    test("three_factors_fully_correlated", deviation_is(book, three_factors(1000), 0, 0, 3000000));
    model.coefficients[2] = model.coefficients[3] = 0;
    test("a_factor_of_minus_1000000_passes", deviation_is(book, model, 0, 0, 1000000));
    model.coefficients[1] = 1;
    test("a_factor_is_cut_towards_zero", deviation_is(book, model, 0, 0, 1));
    test("no_records_have_no_deviation", deviation_is(none, three_factors(1000), 0, 0, 0));
    free(none.bytes);
    free(book.bytes);
}

static void test_deviation_refusals(void)
{
    parameter_book book = risk_book(), zeros = blank(HEADER_SIZE);
    xaropinto_risk_model model = three_factors(-1000);
    test("a_negative_form_is_31", deviation_is(book, model, 31, 0, 0));
    model.coefficients[1] = 999997;
    test("a_factor_of_minus_1000001_is_30_before_31", deviation_is(book, model, 30, 0, 0));
    model.correlation[0][0] = 999;
    test("a_diagonal_of_999_is_29_before_30", deviation_is(book, model, 29, 0, 0));
    model = three_factors(0);
    model.correlation[0][3] = 1;
    test("a_lopsided_correlation_is_29", deviation_is(book, model, 29, 0, 0));
    model.correlation[0][3] = model.correlation[3][0] = INT64_MIN;
    test("the_lowest_correlation_is_29", deviation_is(book, model, 29, 0, 0));
    test("a_correlation_of_1001_is_29", deviation_is(book, three_factors(1001), 29, 0, 0));
    model = three_factors(0);
    model.coefficients[0] = UINT64_MAX;
    test("the_highest_coefficient_is_29", deviation_is(book, model, 29, 0, 0));
    test("the_book_comes_before_the_model", deviation_is(zeros, model, 2, 0, 0));
    put(book, record_start(2) + LAPSE, 4, 1000001);
    test("and_is_refused_with_its_place", deviation_is(book, model, 12, 1256, 0));
    free(zeros.bytes);
    free(book.bytes);
}

/* The four bytes at a place, least byte first. */
static uint32_t number_at(const uint8_t *bytes, size_t place)
{
    return bytes[place] | (uint32_t)bytes[place + 1] << 8 | (uint32_t)bytes[place + 2] << 16 |
           (uint32_t)bytes[place + 3] << 24;
}

/* The refusal is given with place 0, and no byte of the buffer is changed. */
static int practice_refused(uint64_t start, size_t size, uint64_t refusal)
{
    uint8_t *out = exact_memory(size);
    memset(out, 0xA5, size);
    xaropinto_write_reply reply = xaropinto_practice(start, out, size), due = {refusal, 0, 0};
    int holds = memcmp(&reply, &due, sizeof due) == 0;
    for (size_t i = 0; i < size; i++)
        holds &= out[i] == 0xA5;
    free(out);
    return holds;
}

/* By hand, start number 1: the word is 8,193, 8,257, 1,082,269,761 and the counter 362,437, so the
 * first draw is 1,082,632,198; by 1,000,001 that leaves 631,116. The other figures are worked
 * outside. */
static void test_practice(void)
{
    size_t size = XAROPINTO_LONGEST_BOOK + 16;
    uint8_t *out = exact_memory(size), *again = exact_memory(XAROPINTO_LONGEST_BOOK);
    memset(out, 0xA5, size);
    xaropinto_write_reply reply = xaropinto_practice(1, out, size);
    test("practice_book_is_the_longest",
         reply.refusal == 0 && reply.place == 0 && reply.length == XAROPINTO_LONGEST_BOOK);
    test("first_draw_of_1_is_the_cost_rate_of_pg1",
         number_at(out, XAROPINTO_COST_RATES_AT) == 631116);
    test("sixth_draw_is_the_curves_first_rate", number_at(out, XAROPINTO_CURVE_AT) == 67683);
    test("record_1_takes_four_draws",
         number_at(out, record_start(1) + XAROPINTO_COUNT_AT) == 80487 &&
             number_at(out, record_start(1) + XAROPINTO_LAPSE_AT) == 386145 &&
             number_at(out, record_start(1) + XAROPINTO_PREMIUM_AT) == 8977337 &&
             number_at(out, record_start(1) + XAROPINTO_CLAIMS_AT) == 8126851);
    xaropinto_verdict verdict = xaropinto_check(out, XAROPINTO_LONGEST_BOOK);
    test("practice_book_is_accepted", verdict.refusal == 0 && verdict.n == XAROPINTO_MOST_RECORDS);
    int later = 1;
    for (size_t i = XAROPINTO_LONGEST_BOOK; i < size; i++)
        later &= out[i] == 0xA5;
    test("bytes_past_the_practice_book_stay", later);
    xaropinto_practice(1, again, XAROPINTO_LONGEST_BOOK);
    test("equal_start_numbers_give_equal_bytes", memcmp(out, again, XAROPINTO_LONGEST_BOOK) == 0);
    xaropinto_practice(HIGH_BIT + 1, again, XAROPINTO_LONGEST_BOOK);
    test("high_bit_of_the_start_number_counts", memcmp(out, again, XAROPINTO_LONGEST_BOOK) != 0);
    test("a_byte_too_few_is_16", practice_refused(1, XAROPINTO_LONGEST_BOOK - 1, 16));
    test("short_buffer_comes_before_the_number_0",
         practice_refused(0, XAROPINTO_LONGEST_BOOK - 1, 16));
    test("start_number_0_is_32", practice_refused(0, XAROPINTO_LONGEST_BOOK, 32));
    free(out);
    free(again);
}

/* ---- the listing ---- */

/* Is the reply this one, and the buffer this text and then marks? */
static int listing_gives(const uint8_t *book, size_t book_length, size_t bytes,
                         xaropinto_report_reply due, const char *text)
{
    uint8_t out[XAROPINTO_MOST_LISTING_BYTES];
    memset(out, 7, sizeof out);
    xaropinto_report_reply reply = xaropinto_listing(book, book_length, out, bytes);
    int holds = reply.refusal == due.refusal && reply.place == due.place &&
                reply.length == due.length && memcmp(out, text, due.length) == 0;
    for (size_t at = due.length; at < sizeof out; at++)
        holds &= out[at] == 7;
    return holds;
}

static void test_listing(void)
{
    static const char text[] = "0 -5000000 1\n1 -5000000 1\n2 -5000000 1\n3 -5000000 1\n"
                               "4 -5000000 1\n5 -4900000 1\n6 -5100000 1\n7 -4800000 1\n";
    static const uint8_t zeros[XAROPINTO_HEADER_BYTES];
    size_t length = sizeof text - 1, most = XAROPINTO_MOST_LISTING_BYTES;
    xaropinto_report_reply listed = {0, 0, length}, short_buffer = {20, 0, 0}, edition = {2, 0, 0},
                           too_few = {1, XAROPINTO_HEADER_BYTES - 1, 0};
    parameter_book book = one_record_book();
    test("the_listing_has_eight_lines", listing_gives(book.bytes, book.length, most, listed, text));
    test("a_buffer_of_just_its_length_takes_the_listing",
         listing_gives(book.bytes, book.length, length, listed, text));
    test("a_buffer_one_byte_short_is_20_and_stays",
         listing_gives(book.bytes, book.length, length - 1, short_buffer, ""));
    test("no_buffer_for_a_listing_is_20",
         listing_gives(book.bytes, book.length, 0, short_buffer, ""));
    test("a_refused_book_leaves_the_listings_buffer",
         listing_gives(zeros, sizeof zeros, most, edition, ""));
    test("a_refused_listing_has_its_place",
         listing_gives(zeros, sizeof zeros - 1, most, too_few, ""));
    test("the_books_refusal_comes_before_20",
         listing_gives(zeros, sizeof zeros - 1, 0, too_few, ""));
    free(book.bytes);
}

static void test_version(void)
{
    test("library_and_header_are_of_one_version", xaropinto_version() == XAROPINTO_VERSION_NUMBER);
    test("the_version_is_2_1_0",
         strcmp(XAROPINTO_VERSION, "2.2.0") == 0 && XAROPINTO_VERSION_NUMBER == 20200);
}

static void test_refusal_texts(void)
{
    test("every_refusal_has_words", *xaropinto_refusal_text(1) && *xaropinto_refusal_text(32));
    test("no_other_number_has",
         !*xaropinto_refusal_text(33) && !*xaropinto_refusal_text(UINT64_MAX));
    test("none_is_accepted", strcmp(xaropinto_refusal_text(0), "accepted") == 0);
}

/* ---- null pointers, as an empty std::vector has them ---- */

static void test_nulls(void)
{
    xaropinto_values values;
    xaropinto_risk_model model;
    memset(&values, 0, sizeof values);
    memset(&model, 0, sizeof model);
    test("check_takes_a_null_of_no_bytes", xaropinto_check(NULL, 0).refusal == 1);
    test("group_takes_nulls", xaropinto_group(NULL, 0, 0, 1, NULL, 0).refusal == 16);
    test("totals_takes_a_null", xaropinto_totals(NULL, 0).refusal == 1);
    test("listing_takes_nulls", xaropinto_listing(NULL, 0, NULL, 0).refusal == 1);
    test("record_takes_a_null", xaropinto_record(NULL, 0, 1).refusal == 1);
    test("report_takes_nulls", xaropinto_report(NULL, 0, 0, NULL, 0).refusal == 1);
    test("report_room_takes_a_null", xaropinto_report_room(NULL, 0, 0).refusal == 1);
    test("convert_takes_nulls", xaropinto_convert(NULL, 0, NULL, 0).refusal == 1);
    test("write_takes_nulls",
         xaropinto_write(values, NULL, 0, NULL, 0, NULL, 0, NULL, 0, NULL, 0).refusal == 22);
    test("read_takes_nulls",
         xaropinto_read(NULL, 0, NULL, 0, NULL, 0, NULL, 0, NULL, 0).refusal == 1);
    test("funds_takes_nulls",
         xaropinto_funds(NULL, 0, NULL, 0, NULL, 0, NULL, 0).first.refusal == 16);
    test("in_force_takes_nulls", xaropinto_in_force(NULL, 0, 0, 1, 0, 0, NULL, 0).refusal == 25);
    test("deviation_takes_a_null", xaropinto_deviation(NULL, 0, model).refusal == 1);
    test("practice_takes_a_null", xaropinto_practice(1, NULL, 0).refusal == 16);
}

int main(void)
{
    test_version();
    test_sizes();
    test_one_record();
    test_year_table();
    test_group_refusals();
    test_book_refusals();
    test_no_records();
    test_record();
    test_full_book();
    test_settings();
    test_discounting();
    test_cap();
    test_in_force();
    test_percentages();
    test_very_old();
    test_cost_rates();
    test_cost_rate_refusals();
    test_report();
    test_report_refusals();
    test_convert();
    test_write();
    test_links();
    test_write_refusals();
    test_read();
    test_funds();
    test_fund_files();
    test_one_cell();
    test_one_cell_refusals();
    test_spread();
    test_spread_refusals();
    test_deviation();
    test_deviation_refusals();
    test_practice();
    test_listing();
    test_refusal_texts();
    test_nulls();
    printf("%d passed, %d failed\n", passed, failed);
    return failed != 0;
}
