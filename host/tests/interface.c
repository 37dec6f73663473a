/* Compares morgana.h with libmorgana.a: the layout of the replies, the constants, and every field and
 * lent number or byte after a call. */
#include <morgana.h>

#include <stdio.h>
#include <stdlib.h>
#include <string.h>

#define LAYOUT(type, field, offset) \
    _Static_assert(offsetof(type, field) == (offset), #type "." #field)

_Static_assert(sizeof(MorganaCheckReply) == 40, "size of MorganaCheckReply");
LAYOUT(MorganaCheckReply, number, 0);
LAYOUT(MorganaCheckReply, place, 8);
LAYOUT(MorganaCheckReply, arrays, 16);
LAYOUT(MorganaCheckReply, cells, 20);
LAYOUT(MorganaCheckReply, calls, 24);
LAYOUT(MorganaCheckReply, rows, 28);
LAYOUT(MorganaCheckReply, columns, 32);

_Static_assert(sizeof(MorganaEvaluateReply) == 40, "size of MorganaEvaluateReply");
LAYOUT(MorganaEvaluateReply, number, 0);
LAYOUT(MorganaEvaluateReply, place, 8);
LAYOUT(MorganaEvaluateReply, a, 16);
LAYOUT(MorganaEvaluateReply, b, 20);
LAYOUT(MorganaEvaluateReply, c, 24);
LAYOUT(MorganaEvaluateReply, factors, 32);

_Static_assert(sizeof(MorganaQuadraticReply) == 48, "size of MorganaQuadraticReply");
LAYOUT(MorganaQuadraticReply, number, 0);
LAYOUT(MorganaQuadraticReply, place, 8);
LAYOUT(MorganaQuadraticReply, a_u, 16);
LAYOUT(MorganaQuadraticReply, a_v, 20);
LAYOUT(MorganaQuadraticReply, b_u, 24);
LAYOUT(MorganaQuadraticReply, b_v, 28);
LAYOUT(MorganaQuadraticReply, c_u, 32);
LAYOUT(MorganaQuadraticReply, c_v, 36);
LAYOUT(MorganaQuadraticReply, factors, 40);

_Static_assert(sizeof(MorganaCompareReply) == 32, "size of MorganaCompareReply");
LAYOUT(MorganaCompareReply, number, 0);
LAYOUT(MorganaCompareReply, place, 8);
LAYOUT(MorganaCompareReply, key, 16);
LAYOUT(MorganaCompareReply, same, 20);
LAYOUT(MorganaCompareReply, factors, 24);

_Static_assert(sizeof(MorganaLocateReply) == 56, "size of MorganaLocateReply");
LAYOUT(MorganaLocateReply, number, 0);
LAYOUT(MorganaLocateReply, place, 8);
LAYOUT(MorganaLocateReply, key, 16);
LAYOUT(MorganaLocateReply, same, 20);
LAYOUT(MorganaLocateReply, row, 24);
LAYOUT(MorganaLocateReply, column, 28);
LAYOUT(MorganaLocateReply, first_a, 32);
LAYOUT(MorganaLocateReply, first_b, 36);
LAYOUT(MorganaLocateReply, first_c, 40);
LAYOUT(MorganaLocateReply, second_a, 44);
LAYOUT(MorganaLocateReply, second_b, 48);
LAYOUT(MorganaLocateReply, second_c, 52);

_Static_assert(sizeof(MorganaShorterReply) == 16, "size of MorganaShorterReply");
LAYOUT(MorganaShorterReply, key, 0);
LAYOUT(MorganaShorterReply, length, 8);

_Static_assert(sizeof(MorganaPriceReply) == 24, "size of MorganaPriceReply");
LAYOUT(MorganaPriceReply, number, 0);
LAYOUT(MorganaPriceReply, place, 8);
LAYOUT(MorganaPriceReply, pence, 16);

_Static_assert(sizeof(MorganaMoveReply) == 24, "size of MorganaMoveReply");
LAYOUT(MorganaMoveReply, number, 0);
LAYOUT(MorganaMoveReply, place, 8);
LAYOUT(MorganaMoveReply, length, 16);

/* How many numbers were compared with what is wanted, and how many were not as wanted. */
static unsigned held, faults;

static void want(int line, const char *what, uint64_t wanted, uint64_t got)
{
    held++;
    if (wanted != got) {
        faults++;
        fprintf(stderr, "%s:%d: %s: wanted %llu, got %llu\n", __FILE__, line, what,
                (unsigned long long)wanted, (unsigned long long)got);
    }
}

static void checked(int line, MorganaCheckReply got, MorganaCheckReply wanted)
{
    want(line, "number", wanted.number, got.number);
    want(line, "place", wanted.place, got.place);
    want(line, "arrays", wanted.arrays, got.arrays);
    want(line, "cells", wanted.cells, got.cells);
    want(line, "calls", wanted.calls, got.calls);
    want(line, "rows", wanted.rows, got.rows);
    want(line, "columns", wanted.columns, got.columns);
}

static void evaluated(int line, MorganaEvaluateReply got, MorganaEvaluateReply wanted)
{
    want(line, "number", wanted.number, got.number);
    want(line, "place", wanted.place, got.place);
    want(line, "a", wanted.a, got.a);
    want(line, "b", wanted.b, got.b);
    want(line, "c", wanted.c, got.c);
    want(line, "factors", wanted.factors, got.factors);
}

static void quadratic(int line, MorganaQuadraticReply got, MorganaQuadraticReply wanted)
{
    want(line, "number", wanted.number, got.number);
    want(line, "place", wanted.place, got.place);
    want(line, "a_u", wanted.a_u, got.a_u);
    want(line, "a_v", wanted.a_v, got.a_v);
    want(line, "b_u", wanted.b_u, got.b_u);
    want(line, "b_v", wanted.b_v, got.b_v);
    want(line, "c_u", wanted.c_u, got.c_u);
    want(line, "c_v", wanted.c_v, got.c_v);
    want(line, "factors", wanted.factors, got.factors);
}

static void compared(int line, MorganaCompareReply got, MorganaCompareReply wanted)
{
    want(line, "number", wanted.number, got.number);
    want(line, "place", wanted.place, got.place);
    want(line, "key", wanted.key, got.key);
    want(line, "same", wanted.same, got.same);
    want(line, "factors", wanted.factors, got.factors);
}

static void located(int line, MorganaLocateReply got, MorganaLocateReply wanted)
{
    want(line, "number", wanted.number, got.number);
    want(line, "place", wanted.place, got.place);
    want(line, "key", wanted.key, got.key);
    want(line, "same", wanted.same, got.same);
    want(line, "row", wanted.row, got.row);
    want(line, "column", wanted.column, got.column);
    want(line, "first_a", wanted.first_a, got.first_a);
    want(line, "first_b", wanted.first_b, got.first_b);
    want(line, "first_c", wanted.first_c, got.first_c);
    want(line, "second_a", wanted.second_a, got.second_a);
    want(line, "second_b", wanted.second_b, got.second_b);
    want(line, "second_c", wanted.second_c, got.second_c);
}

static void shortened(int line, MorganaShorterReply got, MorganaShorterReply wanted)
{
    want(line, "key", wanted.key, got.key);
    want(line, "length", wanted.length, got.length);
}

static void priced(int line, MorganaPriceReply got, MorganaPriceReply wanted)
{
    want(line, "number", wanted.number, got.number);
    want(line, "place", wanted.place, got.place);
    want(line, "pence", wanted.pence, got.pence);
}

static void moved(int line, MorganaMoveReply got, MorganaMoveReply wanted)
{
    want(line, "number", wanted.number, got.number);
    want(line, "place", wanted.place, got.place);
    want(line, "length", wanted.length, got.length);
}

/* The lent sheet: PLACES numbers between guard words. */
enum { GUARD = 4, PLACES = 14 };
static uint32_t lent[GUARD + PLACES + GUARD];
static uint32_t *const sheet = lent + GUARD;

/* The word that stands at each place of `lent` before a call. */
static uint32_t before(size_t index)
{
    return 0xdead0000u + (uint32_t)index;
}

static void fresh(void)
{
    for (size_t index = 0; index < sizeof lent / sizeof *lent; index++)
        lent[index] = before(index);
}

/* Wants so many numbers written at the start of the sheet, and every other word as it was. */
static void written(int line, size_t count, const uint32_t *numbers)
{
    for (size_t index = 0; index < sizeof lent / sizeof *lent; index++) {
        char what[40];
        snprintf(what, sizeof what, "place %d of the sheet", (int)index - GUARD);
        int inside = index >= GUARD && index < GUARD + count;
        want(line, what, inside ? numbers[index - GUARD] : before(index), lent[index]);
    }
}

/* The lent buffer: BYTES bytes between guard bytes. */
enum { BYTES = 70 };
static uint8_t lent_bytes[GUARD + BYTES + GUARD];
static uint8_t *const buffer = lent_bytes + GUARD;

/* The byte that stands at each place of `lent_bytes` before a call. */
static uint8_t byte_before(size_t index)
{
    return (uint8_t)(0xa0 + index);
}

static void fresh_bytes(void)
{
    for (size_t index = 0; index < sizeof lent_bytes; index++)
        lent_bytes[index] = byte_before(index);
}

/* Wants so many bytes written at the start of the buffer, and every other byte as it was. */
static void copied(int line, size_t count, const uint8_t *bytes)
{
    for (size_t index = 0; index < sizeof lent_bytes; index++) {
        char what[40];
        snprintf(what, sizeof what, "byte %d of the buffer", (int)index - GUARD);
        int inside = index >= GUARD && index < GUARD + count;
        want(line, what, inside ? bytes[index - GUARD] : byte_before(index), lent_bytes[index]);
    }
}

#define CHECK(key, length, ...) \
    checked(__LINE__, morgana_check(key, length), (MorganaCheckReply){__VA_ARGS__})
#define EVALUATED(call, ...) \
    (fresh(), evaluated(__LINE__, call, (MorganaEvaluateReply){__VA_ARGS__}))
#define QUADRATIC(call, ...) \
    (fresh(), quadratic(__LINE__, call, (MorganaQuadraticReply){__VA_ARGS__}))
#define COMPARED(call, ...) \
    (fresh(), compared(__LINE__, call, (MorganaCompareReply){__VA_ARGS__}))
#define LOCATED(call, ...) \
    (fresh(), located(__LINE__, call, (MorganaLocateReply){__VA_ARGS__}))
#define SHORTENED(call, ...) \
    (fresh(), shortened(__LINE__, call, (MorganaShorterReply){__VA_ARGS__}))
#define PRICE(key, length, per_cell, per_call, per_factor, ...) \
    priced(__LINE__, morgana_price(key, length, per_cell, per_call, per_factor), \
           (MorganaPriceReply){__VA_ARGS__})
#define MOVED(call, ...) \
    (fresh_bytes(), moved(__LINE__, call, (MorganaMoveReply){__VA_ARGS__}))
#define REFUSED(name, at) .number = (name), .place = (at)
#define SHEET(...) \
    written(__LINE__, sizeof(uint32_t[]){__VA_ARGS__} / sizeof(uint32_t), (uint32_t[]){__VA_ARGS__})
#define UNTOUCHED() written(__LINE__, 0, NULL)
#define COPIED(key) copied(__LINE__, sizeof(key), key)
#define UNCOPIED() copied(__LINE__, 0, NULL)

/* The key of the keysheet example; its last byte is no part of it. */
static const uint8_t sample[54] = {
    1, 1, 1,
    2, 0, 1,
    4, 0, 0, 0, 0, 1, 0, 0, 0, 5, 0, 0, 0, 7, 0, 0, 0, 0, 0, 0, 0,
    3, 1, 1,
    5, 0, 0, 0, 0, 0, 0, 0, 0, 0, 0,
    5, 0, 0, 0, 0, 0, 0, 0, 0, 0, 0,
    6,
};
enum { LENGTH = 53 };

/* Its count of factors, and that of the same key in edition 2: the cell counts 1, and so does each
 * of the two calls. */
enum { FACTORS = 3 };

/* The sample in edition 2, with a byte behind it, and the same with factors -1 and 3. */
static const uint8_t scaled[62] = {
    7, 1, 1,
    2, 0, 1,
    4, 0, 0, 0, 0, 1, 0, 0, 0, 5, 0, 0, 0, 7, 0, 0, 0, 0, 0, 0, 0,
    3, 1, 1,
    8, 0, 0, 0, 0, 0, 0, 0, 0, 0, 0, 1, 0, 0, 0,
    8, 0, 0, 0, 0, 0, 0, 0, 0, 0, 0, 1, 0, 0, 0,
    6,
};
static const uint8_t negated[] = {
    7, 1, 1,
    2, 0, 1,
    4, 0, 0, 0, 0, 1, 0, 0, 0, 5, 0, 0, 0, 7, 0, 0, 0, 0, 0, 0, 0,
    3, 1, 1,
    8, 0, 0, 0, 0, 0, 0, 0, 0, 0, 0, 0xfe, 0xff, 0xff, 0x7f,
    8, 0, 0, 0, 0, 0, 0, 0, 0, 0, 0, 3, 0, 0, 0,
    6,
};
enum { SCALED_LENGTH = 61 };

/* One empty array of the sample's shape; one cell and no bits; a byte that is no kind. */
static const uint8_t empty[] = {1, 1, 1, 2, 1, 1, 6};
static const uint8_t single[] = {
    1, 0, 0,
    2, 0, 0,
    4, 0, 0, 0, 0, 0, 0, 0, 0, 1, 0, 0, 0, 2, 0, 0, 0, 3, 0, 0, 0,
    6,
};
static const uint8_t unknown[] = {9};

/* The matrices of `single` filled with zeros to the sample's shape, and with their place in row 1. */
static const uint8_t grown[] = {
    1, 1, 1,
    2, 1, 1,
    4, 0, 0, 0, 0, 0, 0, 0, 0, 1, 0, 0, 0, 2, 0, 0, 0, 3, 0, 0, 0,
    6,
};
static const uint8_t displaced[] = {
    1, 1, 1,
    2, 1, 1,
    4, 1, 0, 0, 0, 0, 0, 0, 0, 1, 0, 0, 0, 2, 0, 0, 0, 3, 0, 0, 0,
    6,
};

static const uint32_t three[] = {3}, four[] = {4, 4}, prime[] = {MORGANA_P};

/* The coordinates i and -1 - i, 3 and 4 with v zero, and one whose v is p. */
static const uint32_t imaginary[] = {0, 1, 2}, greatest[] = {MORGANA_P - 1, MORGANA_P - 1};
static const uint32_t three_zero[] = {3, 0}, four_zero[] = {4, 0}, v_prime[] = {3, MORGANA_P};

/* The numbers that the request gives the refusals. */
static void numbers(void)
{
#define NUMBER(name, number) want(__LINE__, #name, number, name)
    NUMBER(MORGANA_NOT_REFUSED, 0);
    NUMBER(MORGANA_KEY_TOO_LONG, 1);
    NUMBER(MORGANA_RECORD_INCOMPLETE, 2);
    NUMBER(MORGANA_KIND_UNKNOWN, 3);
    NUMBER(MORGANA_RECORD_MISPLACED, 4);
    NUMBER(MORGANA_BITS_TOO_MANY, 5);
    NUMBER(MORGANA_ARRAYS_TOO_MANY, 6);
    NUMBER(MORGANA_CELL_OUTSIDE, 7);
    NUMBER(MORGANA_VALUE_TOO_GREAT, 8);
    NUMBER(MORGANA_CALLED_NOT_EARLIER, 9);
    NUMBER(MORGANA_CALLED_TOO_LARGE, 10);
    NUMBER(MORGANA_POSITION_TOO_GREAT, 11);
    NUMBER(MORGANA_LAST_SHAPE_WRONG, 12);
    NUMBER(MORGANA_BYTES_AFTER_END, 13);
    NUMBER(MORGANA_ROW_COUNT_WRONG, 21);
    NUMBER(MORGANA_COLUMN_COUNT_WRONG, 22);
    NUMBER(MORGANA_COORDINATE_TOO_GREAT, 23);
    NUMBER(MORGANA_ADDRESS_OUTSIDE, 24);
    NUMBER(MORGANA_SHEET_TOO_SHORT, 31);
    NUMBER(MORGANA_BUFFER_TOO_SHORT, 32);
    NUMBER(MORGANA_FACTOR_NOT_ONE, 55);
    NUMBER(MORGANA_MOVED_TOO_LONG, 56);
    NUMBER(MORGANA_RATE_TOO_GREAT, 62);
}

/* A key without bits that has so many arrays, all empty; its length. */
static size_t arrays_of(size_t count, uint8_t *key)
{
    static const uint8_t head[] = {1, 0, 0}, array[] = {2, 0, 0};
    memcpy(key, head, 3);
    for (size_t i = 0; i < count; i++)
        memcpy(key + 3 + 3 * i, array, 3);
    key[3 + 3 * count] = 6;
    return 4 + 3 * count;
}

/* A key of as many bytes as a key may have, and one byte behind its end. */
static void key_limit(void)
{
    static uint8_t key[MORGANA_KEY_LIMIT + 1];
    enum { ARRAYS = 4, CELLS = 3120 };
    size_t at = arrays_of(ARRAYS, key) - 1;
    for (int i = 0; i < CELLS; i++, at += 21)
        key[at] = 4;
    key[at++] = 6;
    want(__LINE__, "length", MORGANA_KEY_LIMIT, at);
    CHECK(key, MORGANA_KEY_LIMIT, 0, 0, ARRAYS, CELLS, 0, 0, 0);
    CHECK(key, MORGANA_KEY_LIMIT + 1, REFUSED(MORGANA_KEY_TOO_LONG, MORGANA_KEY_LIMIT));
}

/* A buffer for every copy suffices for a copy of as many bytes as a key may have, and one byte less
 * does not; a copy of three bytes more is refused. */
static void copy_limit(void)
{
    static uint8_t key[MORGANA_KEY_LIMIT], copy[MORGANA_KEY_LIMIT];
    enum { CALLS = 4368 };
    for (size_t arrays = 4; arrays <= 5; arrays++) {
        size_t at = arrays_of(arrays, key) - 1;
        key[at - 3] = 3;
        for (int i = 0; i < CALLS; i++, at += 11) {
            memset(key + at, 0, 11);
            key[at] = 5;
        }
        key[at++] = 6;
        CHECK(key, at, 0, 0, (uint32_t)arrays, 0, CALLS, 0, 0);
        if (arrays == 4) {
            MOVED(morgana_move(key, at, copy, MORGANA_KEY_LIMIT), 0, 0, MORGANA_KEY_LIMIT);
            CHECK(copy, MORGANA_KEY_LIMIT, 0, 0, (uint32_t)arrays, 0, CALLS, 0, 0);
            MOVED(morgana_move(key, at, copy, MORGANA_KEY_LIMIT - 1),
                  REFUSED(MORGANA_BUFFER_TOO_SHORT, MORGANA_KEY_LIMIT));
        } else {
            MOVED(morgana_move(key, at, copy, MORGANA_KEY_LIMIT),
                  REFUSED(MORGANA_MOVED_TOO_LONG, MORGANA_KEY_LIMIT + 3));
        }
    }
}

/* A sheet for every key suffices for as many arrays as a key may have, and one place less does
 * not; one more array is refused. */
static void arrays_limit(void)
{
    static uint8_t key[4 + 3 * (MORGANA_MOST_ARRAYS + 1)];
    static uint32_t lent_sheet[MORGANA_SHEET_QUADRATIC];
    size_t length = arrays_of(MORGANA_MOST_ARRAYS, key);
    CHECK(key, length, 0, 0, MORGANA_MOST_ARRAYS, 0, 0, 0, 0);
#define ON(places) NULL, 0, NULL, 0, lent_sheet, places
    EVALUATED(morgana_evaluate(key, length, ON(MORGANA_SHEET)), 0, 0, 0, 0, 0, 0);
    EVALUATED(morgana_evaluate(key, length, ON(MORGANA_SHEET - 1)),
              REFUSED(MORGANA_SHEET_TOO_SHORT, MORGANA_SHEET));
    COMPARED(morgana_compare(key, length, key, length, ON(MORGANA_SHEET)), 0, 0, 0, 1, 0);
    LOCATED(morgana_locate(key, length, key, length, ON(MORGANA_SHEET)), .same = 1);
    LOCATED(morgana_locate(key, length, single, sizeof single, ON(MORGANA_SHEET)),
            .second_a = 1, .second_b = 2, .second_c = 3);
    LOCATED(morgana_locate(single, sizeof single, key, length, ON(MORGANA_SHEET - 1)),
            REFUSED(MORGANA_SHEET_TOO_SHORT, MORGANA_SHEET));
    SHORTENED(morgana_shorter(key, length, key, length, ON(MORGANA_SHEET)), 1, length);
    SHORTENED(morgana_shorter(key, length, key, length, ON(MORGANA_SHEET - 1)), 0, 0);
    QUADRATIC(morgana_evaluate_quadratic(key, length, ON(MORGANA_SHEET_QUADRATIC)),
              0, 0, 0, 0, 0, 0, 0, 0, 0);
    QUADRATIC(morgana_evaluate_quadratic(key, length, ON(MORGANA_SHEET_QUADRATIC - 1)),
              REFUSED(MORGANA_SHEET_TOO_SHORT, MORGANA_SHEET_QUADRATIC));
    COMPARED(morgana_compare_quadratic(key, length, key, length, ON(MORGANA_SHEET_QUADRATIC)),
             0, 0, 0, 1, 0);
    length = arrays_of(MORGANA_MOST_ARRAYS + 1, key);
    CHECK(key, length, REFUSED(MORGANA_ARRAYS_TOO_MANY, length - 4));
}

/* As many row and column bits as a key may have, and one more of either. */
static void bits_limit(void)
{
    enum { MOST = MORGANA_MOST_BITS };
    const uint8_t most[] = {1, MOST, MOST, 2, MOST, MOST, 6};
    const uint8_t rows_over[] = {1, MOST + 1, 0, 2, MOST + 1, 0, 6};
    const uint8_t columns_over[] = {1, 0, MOST + 1, 2, 0, MOST + 1, 6};
    CHECK(most, sizeof most, 0, 0, 1, 0, 0, MOST, MOST);
    CHECK(rows_over, sizeof rows_over, REFUSED(MORGANA_BITS_TOO_MANY, 0));
    CHECK(columns_over, sizeof columns_over, REFUSED(MORGANA_BITS_TOO_MANY, 0));
}

/* The greatest rate, for each count alone and for all, and one more. */
static void rate_limit(void)
{
    enum { MOST = MORGANA_MOST_RATE };
    want(__LINE__, "the greatest rate", 1000000, MOST);
    PRICE(sample, LENGTH, MOST, 0, 0, 0, 0, 10000);
    PRICE(sample, LENGTH, 0, MOST, 0, 0, 0, 20000);
    PRICE(sample, LENGTH, 0, 0, MOST, 0, 0, FACTORS * 10000);
    PRICE(sample, LENGTH, MOST, MOST, MOST, 0, 0, 60000);
    PRICE(sample, LENGTH, MOST + 1, MOST, MOST, REFUSED(MORGANA_RATE_TOO_GREAT, 0));
    PRICE(sample, LENGTH, MOST, MOST + 1, MOST, REFUSED(MORGANA_RATE_TOO_GREAT, 1));
    PRICE(sample, LENGTH, MOST, MOST, MOST + 1, REFUSED(MORGANA_RATE_TOO_GREAT, 2));
}

static void constants(void)
{
    want(__LINE__, "version", MORGANA_VERSION, morgana_version());
    want(__LINE__, "p", 2147483647, MORGANA_P);
    key_limit();
    copy_limit();
    arrays_limit();
    bits_limit();
    rate_limit();
}

static void check_calls(void)
{
    static uint8_t zeros[MORGANA_KEY_LIMIT + 1];
    CHECK(sample, LENGTH, 0, 0, 2, 1, 2, 1, 1);
    CHECK(scaled, SCALED_LENGTH, 0, 0, 2, 1, 2, 1, 1);
    CHECK(negated, sizeof negated, 0, 0, 2, 1, 2, 1, 1);
    CHECK(single, sizeof single, 0, 0, 1, 1, 0, 0, 0);
    CHECK(zeros, sizeof zeros, REFUSED(MORGANA_KEY_TOO_LONG, MORGANA_KEY_LIMIT));
    CHECK(zeros, MORGANA_KEY_LIMIT, REFUSED(MORGANA_KIND_UNKNOWN, 0));
    CHECK(NULL, 0, REFUSED(MORGANA_RECORD_INCOMPLETE, 0));
    CHECK(sample, LENGTH - 1, REFUSED(MORGANA_RECORD_INCOMPLETE, 52));
    CHECK(unknown, 1, REFUSED(MORGANA_KIND_UNKNOWN, 0));
    CHECK(sample + 3, LENGTH - 3, REFUSED(MORGANA_RECORD_MISPLACED, 0));
    CHECK(sample, LENGTH + 1, REFUSED(MORGANA_BYTES_AFTER_END, 53));
    CHECK(scaled, SCALED_LENGTH - 2, REFUSED(MORGANA_RECORD_INCOMPLETE, 45));
    CHECK(scaled, SCALED_LENGTH + 1, REFUSED(MORGANA_BYTES_AFTER_END, 61));
    uint8_t wrong[SCALED_LENGTH];
    memcpy(wrong, scaled, SCALED_LENGTH);
    wrong[0] = 1;
    CHECK(wrong, SCALED_LENGTH, REFUSED(MORGANA_RECORD_MISPLACED, 30));
    wrong[0] = 7;
    wrong[3] = 7;
    CHECK(wrong, SCALED_LENGTH, REFUSED(MORGANA_RECORD_MISPLACED, 3));
    wrong[3] = 2;
    memcpy(wrong + 41, (const uint8_t[]){0xff, 0xff, 0xff, 0x7f}, 4);
    CHECK(wrong, SCALED_LENGTH, REFUSED(MORGANA_VALUE_TOO_GREAT, 30));
    memcpy(wrong, sample, LENGTH);
    wrong[0] = 7;
    CHECK(wrong, LENGTH, REFUSED(MORGANA_RECORD_MISPLACED, 30));
}

static void evaluate_calls(void)
{
    EVALUATED(morgana_evaluate(sample, LENGTH, three, 1, four, 1, sheet, PLACES),
              0, 0, 2147483567, 2147483535, 0, FACTORS);
    SHEET(20, 28, 0, 2147483567, 2147483535, 0);
    EVALUATED(morgana_evaluate(sample, LENGTH, three, 1, four, 1, sheet, 6),
              0, 0, 2147483567, 2147483535, 0, FACTORS);
    SHEET(20, 28, 0, 2147483567, 2147483535, 0);
    EVALUATED(morgana_evaluate(negated, sizeof negated, three, 1, four, 1, sheet, PLACES),
              0, 0, 2147483567, 2147483535, 0, FACTORS);
    SHEET(20, 28, 0, 2147483567, 2147483535, 0);
    EVALUATED(morgana_evaluate(single, sizeof single, NULL, 0, NULL, 0, sheet, PLACES),
              0, 0, 1, 2, 3, 0);
    SHEET(1, 2, 3);
    EVALUATED(morgana_evaluate(NULL, 0, NULL, 0, NULL, 0, NULL, 0),
              REFUSED(MORGANA_RECORD_INCOMPLETE, 0));
    EVALUATED(morgana_evaluate(unknown, 1, prime, 1, four, 2, sheet, 0),
              REFUSED(MORGANA_KIND_UNKNOWN, 0));
    UNTOUCHED();
    EVALUATED(morgana_evaluate(sample, LENGTH, NULL, 0, four, 2, sheet, 0),
              REFUSED(MORGANA_ROW_COUNT_WRONG, 0));
    UNTOUCHED();
    EVALUATED(morgana_evaluate(sample, LENGTH, prime, 1, four, 2, sheet, 0),
              REFUSED(MORGANA_COLUMN_COUNT_WRONG, 2));
    UNTOUCHED();
    EVALUATED(morgana_evaluate(sample, LENGTH, prime, 1, prime, 1, sheet, 0),
              REFUSED(MORGANA_COORDINATE_TOO_GREAT, 0));
    UNTOUCHED();
    EVALUATED(morgana_evaluate(sample, LENGTH, three, 1, prime, 1, sheet, PLACES),
              REFUSED(MORGANA_COORDINATE_TOO_GREAT, 1));
    UNTOUCHED();
    EVALUATED(morgana_evaluate(sample, LENGTH, three, 1, four, 1, sheet, 5),
              REFUSED(MORGANA_SHEET_TOO_SHORT, 6));
    UNTOUCHED();
    EVALUATED(morgana_evaluate(sample, LENGTH, three, 1, four, 1, NULL, 0),
              REFUSED(MORGANA_SHEET_TOO_SHORT, 6));
}

static void cell_calls(void)
{
    EVALUATED(morgana_cell(sample, LENGTH, 0, 1, sheet, PLACES), 0, 0, 10, 14, 0, FACTORS);
    SHEET(5, 7, 0, 10, 14, 0);
    EVALUATED(morgana_cell(negated, sizeof negated, 0, 1, sheet, PLACES),
              0, 0, 10, 14, 0, FACTORS);
    SHEET(5, 7, 0, 10, 14, 0);
    EVALUATED(morgana_cell(sample, LENGTH, 1, 1, sheet, 6), 0, 0, 0, 0, 0, FACTORS);
    SHEET(5, 7, 0, 0, 0, 0);
    EVALUATED(morgana_cell(NULL, 0, 0, 0, NULL, 0), REFUSED(MORGANA_RECORD_INCOMPLETE, 0));
    EVALUATED(morgana_cell(sample, LENGTH + 1, 2, 2, sheet, 0),
              REFUSED(MORGANA_BYTES_AFTER_END, 53));
    UNTOUCHED();
    EVALUATED(morgana_cell(sample, LENGTH, 2, 2, sheet, 0), REFUSED(MORGANA_ADDRESS_OUTSIDE, 0));
    UNTOUCHED();
    EVALUATED(morgana_cell(sample, LENGTH, 1, UINT32_MAX, sheet, PLACES),
              REFUSED(MORGANA_ADDRESS_OUTSIDE, 1));
    UNTOUCHED();
    EVALUATED(morgana_cell(sample, LENGTH, 0, 1, sheet, 5), REFUSED(MORGANA_SHEET_TOO_SHORT, 6));
    UNTOUCHED();
}

static void compare_calls(void)
{
    uint8_t other[LENGTH];
    memcpy(other, sample, LENGTH);
    other[15] = 6;
#define COMPARE(first, first_length, second, second_length, rows, rows_length, columns, \
                columns_length, length, ...) \
    COMPARED(morgana_compare(first, first_length, second, second_length, rows, rows_length, \
                             columns, columns_length, sheet, length), __VA_ARGS__)
    COMPARE(sample, LENGTH, sample, LENGTH, three, 1, four, 1, PLACES, 0, 0, 0, 1, 2 * FACTORS);
    SHEET(20, 28, 0, 2147483567, 2147483535, 0);
    COMPARE(sample, LENGTH, negated, sizeof negated, three, 1, four, 1, PLACES,
            0, 0, 0, 1, 2 * FACTORS);
    SHEET(20, 28, 0, 2147483567, 2147483535, 0);
    COMPARE(scaled, SCALED_LENGTH, other, LENGTH, three, 1, four, 1, PLACES,
            0, 0, 0, 0, 2 * FACTORS);
    SHEET(24, 28, 0, 2147483551, 2147483535, 0);
    COMPARE(sample, LENGTH, other, LENGTH, three, 1, four, 1, 6, 0, 0, 0, 0, 2 * FACTORS);
    SHEET(24, 28, 0, 2147483551, 2147483535, 0);
    COMPARE(sample, LENGTH, empty, sizeof empty, three, 1, four, 1, PLACES, 0, 0, 0, 0, FACTORS);
    SHEET(0, 0, 0, 2147483567, 2147483535, 0);
    COMPARE(single, sizeof single, single, sizeof single, NULL, 0, NULL, 0, PLACES, 0, 0, 0, 1, 0);
    SHEET(1, 2, 3);
    COMPARE(unknown, 1, NULL, 0, NULL, 0, NULL, 0, 0, REFUSED(MORGANA_KIND_UNKNOWN, 0), .key = 1);
    UNTOUCHED();
    COMPARE(sample, LENGTH, sample, 52, NULL, 0, NULL, 0, 0,
            REFUSED(MORGANA_RECORD_INCOMPLETE, 52), .key = 2);
    UNTOUCHED();
    /* `single` does not use the row and the column coordinate, which count 1 each. The sheet has its
     * numbers as they are; what is compared is 6 times those. */
    COMPARE(single, sizeof single, grown, sizeof grown, three, 1, four, 1, PLACES,
            0, 0, 0, 1, 2 + 2);
    SHEET(6, 12, 18);
    COMPARE(grown, sizeof grown, single, sizeof single, three, 1, four, 1, 3, 0, 0, 0, 1, 2 + 2);
    SHEET(1, 2, 3);
    COMPARE(single, sizeof single, displaced, sizeof displaced, three, 1, four, 1, PLACES,
            0, 0, 0, 0, 2 + 2);
    SHEET(2147483638, 2147483629, 2147483620);
    COMPARE(sample, LENGTH, single, sizeof single, three, 1, four, 1, PLACES,
            0, 0, 0, 0, FACTORS + 2);
    SHEET(1, 2, 3, 2147483567, 2147483535, 0);
    COMPARE(single, sizeof single, sample, LENGTH, three, 1, four, 1, 6, 0, 0, 0, 0, FACTORS + 2);
    SHEET(20, 28, 0, 2147483567, 2147483535, 0);
    COMPARE(sample, LENGTH, single, sizeof single, NULL, 0, NULL, 0, 0,
            REFUSED(MORGANA_ROW_COUNT_WRONG, 0));
    UNTOUCHED();
    COMPARE(single, sizeof single, sample, LENGTH, prime, 1, NULL, 0, 0,
            REFUSED(MORGANA_COLUMN_COUNT_WRONG, 0));
    UNTOUCHED();
    COMPARE(single, sizeof single, sample, LENGTH, three, 1, prime, 1, 0,
            REFUSED(MORGANA_COORDINATE_TOO_GREAT, 1));
    UNTOUCHED();
    COMPARE(single, sizeof single, sample, LENGTH, three, 1, four, 1, 5,
            REFUSED(MORGANA_SHEET_TOO_SHORT, 6));
    UNTOUCHED();
    COMPARE(sample, LENGTH, empty, sizeof empty, four, 2, NULL, 0, 0,
            REFUSED(MORGANA_ROW_COUNT_WRONG, 2));
    UNTOUCHED();
    COMPARE(sample, LENGTH, empty, sizeof empty, three, 1, NULL, 0, 0,
            REFUSED(MORGANA_COLUMN_COUNT_WRONG, 0));
    UNTOUCHED();
    COMPARE(sample, LENGTH, empty, sizeof empty, three, 1, prime, 1, 0,
            REFUSED(MORGANA_COORDINATE_TOO_GREAT, 1));
    UNTOUCHED();
    COMPARE(empty, sizeof empty, sample, LENGTH, three, 1, four, 1, 5,
            REFUSED(MORGANA_SHEET_TOO_SHORT, 6));
    UNTOUCHED();
}

static void locate_calls(void)
{
    uint8_t other[LENGTH];
    memcpy(other, sample, LENGTH);
    other[15] = 6;
#define LOCATE(first, first_length, second, second_length, rows, rows_length, columns, \
               columns_length, length, ...) \
    LOCATED(morgana_locate(first, first_length, second, second_length, rows, rows_length, \
                           columns, columns_length, sheet, length), __VA_ARGS__)
    LOCATE(sample, LENGTH, negated, sizeof negated, three, 1, four, 1, PLACES, .same = 1);
    SHEET(20, 28, 0, 2147483567, 2147483535, 0);
    LOCATE(single, sizeof single, grown, sizeof grown, three, 1, four, 1, PLACES, .same = 1);
    SHEET(6, 12, 18);
    /* They differ in row 0 and column 1, where the sample has 10 and 14: then the sheet has the last
     * key's numbers there. */
    LOCATE(sample, LENGTH, other, LENGTH, three, 1, four, 1, 6, 0, 0, 0, 0, 0, 1, 10, 14, 0, 12, 14, 0);
    SHEET(6, 7, 0, 12, 14, 0);
    LOCATE(other, LENGTH, scaled, SCALED_LENGTH, three, 1, four, 1, PLACES,
           0, 0, 0, 0, 0, 1, 12, 14, 0, 10, 14, 0);
    SHEET(5, 7, 0, 10, 14, 0);
    LOCATE(sample, LENGTH, empty, sizeof empty, three, 1, four, 1, PLACES,
           0, 0, 0, 0, 0, 1, 10, 14, 0, 0, 0, 0);
    SHEET(0, 0, 0, 10, 14, 0);
    /* `single` has one place, and zeros beyond it. */
    LOCATE(grown, sizeof grown, displaced, sizeof displaced, three, 1, four, 1, PLACES,
           0, 0, 0, 0, 0, 0, 1, 2, 3, 0, 0, 0);
    SHEET(0, 0, 0);
    LOCATE(empty, sizeof empty, displaced, sizeof displaced, three, 1, four, 1, PLACES,
           0, 0, 0, 0, 1, 0, 0, 0, 0, 1, 2, 3);
    SHEET(1, 2, 3);
    uint8_t alone[sizeof single];
    memcpy(alone, single, sizeof single);
    memset(alone + 15, 0, 12);
    LOCATE(displaced, sizeof displaced, alone, sizeof alone, three, 1, four, 1, PLACES,
           0, 0, 0, 0, 1, 0, 1, 2, 3, 0, 0, 0);
    SHEET(0, 0, 0);
    LOCATE(single, sizeof single, alone, sizeof alone, NULL, 0, NULL, 0, PLACES,
           0, 0, 0, 0, 0, 0, 1, 2, 3, 0, 0, 0);
    SHEET(0, 0, 0);
    LOCATE(single, sizeof single, single, sizeof single, NULL, 0, NULL, 0, 3, .same = 1);
    SHEET(1, 2, 3);
    LOCATE(unknown, 1, NULL, 0, NULL, 0, NULL, 0, 0, REFUSED(MORGANA_KIND_UNKNOWN, 0), .key = 1);
    UNTOUCHED();
    LOCATE(sample, LENGTH, sample, 52, NULL, 0, NULL, 0, 0,
           REFUSED(MORGANA_RECORD_INCOMPLETE, 52), .key = 2);
    UNTOUCHED();
    LOCATE(sample, LENGTH, single, sizeof single, NULL, 0, NULL, 0, 0,
           REFUSED(MORGANA_ROW_COUNT_WRONG, 0));
    UNTOUCHED();
    LOCATE(single, sizeof single, sample, LENGTH, prime, 1, NULL, 0, 0,
           REFUSED(MORGANA_COLUMN_COUNT_WRONG, 0));
    UNTOUCHED();
    LOCATE(single, sizeof single, sample, LENGTH, three, 1, prime, 1, 0,
           REFUSED(MORGANA_COORDINATE_TOO_GREAT, 1));
    UNTOUCHED();
    LOCATE(single, sizeof single, sample, LENGTH, three, 1, four, 1, 5,
           REFUSED(MORGANA_SHEET_TOO_SHORT, 6));
    UNTOUCHED();
}

static void shorter_calls(void)
{
    uint8_t copy[LENGTH], other[LENGTH], plain[sizeof single], twice[34];
    memcpy(copy, sample, LENGTH);
    memcpy(other, sample, LENGTH);
    other[15] = 6;
    memcpy(plain, single, sizeof single);
    plain[0] = 7;
    /* `single` with two empty arrays before its own. */
    memcpy(twice, single, 6);
    memcpy(twice + 6, single + 3, 3);
    memcpy(twice + 9, single + 3, sizeof single - 3);
#define SHORTER(first, first_length, second, second_length, rows, rows_length, columns, \
                columns_length, length, ...) \
    SHORTENED(morgana_shorter(first, first_length, second, second_length, rows, rows_length, \
                              columns, columns_length, sheet, length), __VA_ARGS__)
    /* One length: the first. */
    SHORTER(sample, LENGTH, copy, LENGTH, three, 1, four, 1, PLACES, 1, LENGTH);
    SHEET(20, 28, 0, 2147483567, 2147483535, 0);
    SHORTER(sample, LENGTH, sample, LENGTH, three, 1, four, 1, 6, 1, LENGTH);
    SHEET(20, 28, 0, 2147483567, 2147483535, 0);
    SHORTER(scaled, SCALED_LENGTH, negated, sizeof negated, three, 1, four, 1, PLACES,
            1, SCALED_LENGTH);
    SHEET(20, 28, 0, 2147483567, 2147483535, 0);
    SHORTER(single, sizeof single, plain, sizeof plain, NULL, 0, NULL, 0, 3, 1, sizeof single);
    SHEET(1, 2, 3);
    SHORTER(single, sizeof single, grown, sizeof grown, three, 1, four, 1, PLACES,
            1, sizeof single);
    SHEET(6, 12, 18);
    SHORTER(grown, sizeof grown, single, sizeof single, three, 1, four, 1, 3, 1, sizeof grown);
    SHEET(1, 2, 3);
    /* Two lengths: the shorter, wherever it stands. */
    SHORTER(sample, LENGTH, scaled, SCALED_LENGTH, three, 1, four, 1, PLACES, 1, LENGTH);
    SHEET(20, 28, 0, 2147483567, 2147483535, 0);
    SHORTER(scaled, SCALED_LENGTH, sample, LENGTH, three, 1, four, 1, PLACES, 2, LENGTH);
    SHEET(20, 28, 0, 2147483567, 2147483535, 0);
    SHORTER(twice, sizeof twice, single, sizeof single, NULL, 0, NULL, 0, PLACES,
            2, sizeof single);
    SHEET(1, 2, 3, 0, 0, 0, 1, 2, 3);
    SHORTER(single, sizeof single, twice, sizeof twice, NULL, 0, NULL, 0, 9, 1, sizeof single);
    SHEET(0, 0, 0, 0, 0, 0, 1, 2, 3);
    SHORTER(twice, sizeof twice, grown, sizeof grown, three, 1, four, 1, PLACES,
            2, sizeof grown);
    SHEET(6, 12, 18, 0, 0, 0, 1, 2, 3);
    /* Different: nothing, and the sheet of the comparison. */
    SHORTER(sample, LENGTH, other, LENGTH, three, 1, four, 1, 6, 0, 0);
    SHEET(24, 28, 0, 2147483551, 2147483535, 0);
    SHORTER(other, LENGTH, scaled, SCALED_LENGTH, three, 1, four, 1, PLACES, 0, 0);
    SHEET(20, 28, 0, 2147483567, 2147483535, 0);
    SHORTER(sample, LENGTH, empty, sizeof empty, three, 1, four, 1, PLACES, 0, 0);
    SHEET(0, 0, 0, 2147483567, 2147483535, 0);
    SHORTER(displaced, sizeof displaced, single, sizeof single, three, 1, four, 1, PLACES, 0, 0);
    SHEET(1, 2, 3);
    /* Refused: nothing, and the sheet as it was. */
    SHORTENED(morgana_shorter(NULL, 0, NULL, 0, NULL, 0, NULL, 0, NULL, 0), 0, 0);
    SHORTER(unknown, 1, sample, LENGTH, three, 1, four, 1, PLACES, 0, 0);
    UNTOUCHED();
    SHORTER(NULL, 0, sample, LENGTH, three, 1, four, 1, PLACES, 0, 0);
    UNTOUCHED();
    SHORTER(sample, LENGTH, sample, LENGTH - 1, three, 1, four, 1, PLACES, 0, 0);
    UNTOUCHED();
    SHORTER(sample, LENGTH + 1, sample, LENGTH, three, 1, four, 1, PLACES, 0, 0);
    UNTOUCHED();
    SHORTER(sample, LENGTH, NULL, 0, three, 1, four, 1, PLACES, 0, 0);
    UNTOUCHED();
    SHORTER(sample, LENGTH, scaled, SCALED_LENGTH, NULL, 0, four, 1, PLACES, 0, 0);
    UNTOUCHED();
    SHORTER(scaled, SCALED_LENGTH, sample, LENGTH, three, 1, four, 2, PLACES, 0, 0);
    UNTOUCHED();
    SHORTER(sample, LENGTH, scaled, SCALED_LENGTH, prime, 1, four, 1, PLACES, 0, 0);
    UNTOUCHED();
    SHORTER(scaled, SCALED_LENGTH, sample, LENGTH, three, 1, prime, 1, PLACES, 0, 0);
    UNTOUCHED();
    SHORTER(sample, LENGTH, scaled, SCALED_LENGTH, three, 1, four, 1, 5, 0, 0);
    UNTOUCHED();
    SHORTER(single, sizeof single, twice, sizeof twice, NULL, 0, NULL, 0, 8, 0, 0);
    UNTOUCHED();
}

static void evaluate_quadratic_calls(void)
{
#define EVALUATE(key, key_length, rows, rows_length, columns, columns_length, length, ...) \
    QUADRATIC(morgana_evaluate_quadratic(key, key_length, rows, rows_length, columns, \
                                         columns_length, sheet, length), __VA_ARGS__)
    /* 5 and 7 times -1 - i, and both times 2 * (1 - i): -20 and -28. */
    EVALUATE(sample, LENGTH, imaginary, 2, greatest, 2, PLACES,
             0, 0, 2147483627, 0, 2147483619, 0, 0, 0, FACTORS);
    SHEET(2147483642, 2147483642, 2147483640, 2147483640, 0, 0, 2147483627, 0, 2147483619, 0, 0, 0);
    EVALUATE(negated, sizeof negated, imaginary, 2, greatest, 2, PLACES,
             0, 0, 2147483627, 0, 2147483619, 0, 0, 0, FACTORS);
    SHEET(2147483642, 2147483642, 2147483640, 2147483640, 0, 0, 2147483627, 0, 2147483619, 0, 0, 0);
    EVALUATE(sample, LENGTH, three_zero, 2, four_zero, 2, 12,
             0, 0, 2147483567, 0, 2147483535, 0, 0, 0, FACTORS);
    SHEET(20, 0, 28, 0, 0, 0, 2147483567, 0, 2147483535, 0, 0, 0);
    EVALUATE(single, sizeof single, NULL, 0, NULL, 0, PLACES, 0, 0, 1, 0, 2, 0, 3, 0, 0);
    SHEET(1, 0, 2, 0, 3, 0);
    QUADRATIC(morgana_evaluate_quadratic(NULL, 0, NULL, 0, NULL, 0, NULL, 0),
              REFUSED(MORGANA_RECORD_INCOMPLETE, 0));
    EVALUATE(unknown, 1, prime, 1, four, 1, 0, REFUSED(MORGANA_KIND_UNKNOWN, 0));
    UNTOUCHED();
    EVALUATE(sample, LENGTH, prime, 1, four, 1, 0, REFUSED(MORGANA_ROW_COUNT_WRONG, 1));
    UNTOUCHED();
    EVALUATE(sample, LENGTH, imaginary, 3, four, 1, 0, REFUSED(MORGANA_ROW_COUNT_WRONG, 3));
    UNTOUCHED();
    EVALUATE(sample, LENGTH, v_prime, 2, four, 1, 0, REFUSED(MORGANA_COLUMN_COUNT_WRONG, 1));
    UNTOUCHED();
    EVALUATE(sample, LENGTH, v_prime, 2, v_prime, 2, 0, REFUSED(MORGANA_COORDINATE_TOO_GREAT, 1));
    UNTOUCHED();
    EVALUATE(sample, LENGTH, imaginary, 2, v_prime, 2, PLACES,
             REFUSED(MORGANA_COORDINATE_TOO_GREAT, 3));
    UNTOUCHED();
    EVALUATE(sample, LENGTH, imaginary, 2, greatest, 2, 11, REFUSED(MORGANA_SHEET_TOO_SHORT, 12));
    UNTOUCHED();
    QUADRATIC(morgana_evaluate_quadratic(sample, LENGTH, imaginary, 2, greatest, 2, NULL, 0),
              REFUSED(MORGANA_SHEET_TOO_SHORT, 12));
}

static void compare_quadratic_calls(void)
{
    uint8_t other[LENGTH];
    memcpy(other, sample, LENGTH);
    other[15] = 6;
#define COMPARE_QUADRATIC(first, first_length, second, second_length, rows, rows_length, columns, \
                          columns_length, length, ...) \
    COMPARED(morgana_compare_quadratic(first, first_length, second, second_length, rows, \
                                       rows_length, columns, columns_length, sheet, length), \
             __VA_ARGS__)
    COMPARE_QUADRATIC(sample, LENGTH, sample, LENGTH, imaginary, 2, greatest, 2, PLACES,
                      0, 0, 0, 1, 2 * FACTORS);
    SHEET(2147483642, 2147483642, 2147483640, 2147483640, 0, 0, 2147483627, 0, 2147483619, 0, 0, 0);
    COMPARE_QUADRATIC(negated, sizeof negated, sample, LENGTH, imaginary, 2, greatest, 2, PLACES,
                      0, 0, 0, 1, 2 * FACTORS);
    SHEET(2147483642, 2147483642, 2147483640, 2147483640, 0, 0, 2147483627, 0, 2147483619, 0, 0, 0);
    COMPARE_QUADRATIC(sample, LENGTH, other, LENGTH, imaginary, 2, greatest, 2, 12,
                      0, 0, 0, 0, 2 * FACTORS);
    SHEET(2147483641, 2147483641, 2147483640, 2147483640, 0, 0, 2147483623, 0, 2147483619, 0, 0, 0);
    COMPARE_QUADRATIC(sample, LENGTH, empty, sizeof empty, imaginary, 2, greatest, 2, PLACES,
                      0, 0, 0, 0, FACTORS);
    SHEET(0, 0, 0, 0, 0, 0, 2147483627, 0, 2147483619, 0, 0, 0);
    COMPARE_QUADRATIC(unknown, 1, NULL, 0, NULL, 0, NULL, 0, 0,
                      REFUSED(MORGANA_KIND_UNKNOWN, 0), .key = 1);
    UNTOUCHED();
    COMPARE_QUADRATIC(sample, LENGTH, sample, 52, NULL, 0, NULL, 0, 0,
                      REFUSED(MORGANA_RECORD_INCOMPLETE, 52), .key = 2);
    UNTOUCHED();
    /* What is compared of `single` is (1 - i) * (2 + i) times its numbers: 3 - i times those. */
    COMPARE_QUADRATIC(single, sizeof single, grown, sizeof grown, imaginary, 2, greatest, 2, PLACES,
                      0, 0, 0, 1, 2 + 2);
    SHEET(3, 2147483646, 6, 2147483645, 9, 2147483644);
    COMPARE_QUADRATIC(grown, sizeof grown, single, sizeof single, imaginary, 2, greatest, 2, 6,
                      0, 0, 0, 1, 2 + 2);
    SHEET(1, 0, 2, 0, 3, 0);
    COMPARE_QUADRATIC(displaced, sizeof displaced, single, sizeof single, imaginary, 2, greatest, 2,
                      PLACES, 0, 0, 0, 0, 2 + 2);
    SHEET(1, 0, 2, 0, 3, 0);
    COMPARE_QUADRATIC(sample, LENGTH, single, sizeof single, imaginary, 2, greatest, 2, PLACES,
                      0, 0, 0, 0, FACTORS + 2);
    SHEET(1, 0, 2, 0, 3, 0, 2147483627, 0, 2147483619, 0, 0, 0);
    COMPARE_QUADRATIC(single, sizeof single, sample, LENGTH, NULL, 0, NULL, 0, 0,
                      REFUSED(MORGANA_ROW_COUNT_WRONG, 0));
    UNTOUCHED();
    COMPARE_QUADRATIC(single, sizeof single, sample, LENGTH, v_prime, 2, four, 1, 0,
                      REFUSED(MORGANA_COLUMN_COUNT_WRONG, 1));
    UNTOUCHED();
    COMPARE_QUADRATIC(sample, LENGTH, single, sizeof single, imaginary, 2, v_prime, 2, 0,
                      REFUSED(MORGANA_COORDINATE_TOO_GREAT, 3));
    UNTOUCHED();
    COMPARE_QUADRATIC(single, sizeof single, sample, LENGTH, imaginary, 2, greatest, 2, 11,
                      REFUSED(MORGANA_SHEET_TOO_SHORT, 12));
    UNTOUCHED();
    COMPARE_QUADRATIC(sample, LENGTH, empty, sizeof empty, three, 1, NULL, 0, 0,
                      REFUSED(MORGANA_ROW_COUNT_WRONG, 1));
    UNTOUCHED();
    COMPARE_QUADRATIC(sample, LENGTH, empty, sizeof empty, v_prime, 2, NULL, 0, 0,
                      REFUSED(MORGANA_COLUMN_COUNT_WRONG, 0));
    UNTOUCHED();
    COMPARE_QUADRATIC(sample, LENGTH, empty, sizeof empty, imaginary, 2, v_prime, 2, 0,
                      REFUSED(MORGANA_COORDINATE_TOO_GREAT, 3));
    UNTOUCHED();
    COMPARE_QUADRATIC(empty, sizeof empty, sample, LENGTH, imaginary, 2, greatest, 2, 11,
                      REFUSED(MORGANA_SHEET_TOO_SHORT, 12));
    UNTOUCHED();
}

static void price_calls(void)
{
    PRICE(sample, LENGTH, 150, 75, 3, 0, 0, 3);
    PRICE(sample, LENGTH, 0, 0, 100, 0, 0, FACTORS);
    PRICE(scaled, SCALED_LENGTH, 0, 0, 100, 0, 0, FACTORS);
    PRICE(negated, sizeof negated, 100, 1000, 10000, 0, 0, 1 + 20 + 300);
    PRICE(empty, sizeof empty, 100, 100, 100, 0, 0, 0);
    /* Half a penny upwards, of the total alone. */
    PRICE(single, sizeof single, 49, 100, 100, 0, 0, 0);
    PRICE(single, sizeof single, 50, 100, 100, 0, 0, 1);
    PRICE(single, sizeof single, 149, 0, 0, 0, 0, 1);
    PRICE(single, sizeof single, 150, 0, 0, 0, 0, 2);
    PRICE(sample, LENGTH, 25, 11, 0, 0, 0, 0);
    PRICE(sample, LENGTH, 25, 11, 1, 0, 0, 1);
    PRICE(sample, LENGTH, 60, 30, 20, 0, 0, 2);
    /* The key first, then the first rate at fault. */
    PRICE(NULL, 0, 0, 0, 0, REFUSED(MORGANA_RECORD_INCOMPLETE, 0));
    PRICE(unknown, 1, UINT32_MAX, 0, 0, REFUSED(MORGANA_KIND_UNKNOWN, 0));
    PRICE(sample, LENGTH - 1, 0, UINT32_MAX, 0, REFUSED(MORGANA_RECORD_INCOMPLETE, 52));
    PRICE(scaled, SCALED_LENGTH + 1, 0, 0, UINT32_MAX, REFUSED(MORGANA_BYTES_AFTER_END, 61));
    PRICE(sample, LENGTH, UINT32_MAX, UINT32_MAX, UINT32_MAX, REFUSED(MORGANA_RATE_TOO_GREAT, 0));
    PRICE(scaled, SCALED_LENGTH, 0, UINT32_MAX, UINT32_MAX, REFUSED(MORGANA_RATE_TOO_GREAT, 1));
    PRICE(empty, sizeof empty, 0, 0, UINT32_MAX, REFUSED(MORGANA_RATE_TOO_GREAT, 2));
}

static void move_calls(void)
{
    uint8_t there[SCALED_LENGTH], back[LENGTH];
    memcpy(there, scaled, SCALED_LENGTH);
    memcpy(back, sample, LENGTH);
    MOVED(morgana_move(sample, LENGTH, buffer, BYTES), 0, 0, SCALED_LENGTH);
    COPIED(there);
    MOVED(morgana_move(sample, LENGTH, buffer, SCALED_LENGTH), 0, 0, SCALED_LENGTH);
    COPIED(there);
    MOVED(morgana_move(scaled, SCALED_LENGTH, buffer, BYTES), 0, 0, LENGTH);
    COPIED(back);
    MOVED(morgana_move(scaled, SCALED_LENGTH, buffer, LENGTH), 0, 0, LENGTH);
    COPIED(back);
    uint8_t plain[sizeof single];
    memcpy(plain, single, sizeof single);
    plain[0] = 7;
    MOVED(morgana_move(single, sizeof single, buffer, BYTES), 0, 0, sizeof single);
    COPIED(plain);
    MOVED(morgana_move(plain, sizeof plain, buffer, BYTES), 0, 0, sizeof plain);
    COPIED(single);
    MOVED(morgana_move(NULL, 0, NULL, 0), REFUSED(MORGANA_RECORD_INCOMPLETE, 0));
    MOVED(morgana_move(unknown, 1, buffer, BYTES), REFUSED(MORGANA_KIND_UNKNOWN, 0));
    UNCOPIED();
    MOVED(morgana_move(scaled, SCALED_LENGTH + 1, buffer, 0), REFUSED(MORGANA_BYTES_AFTER_END, 61));
    UNCOPIED();
    MOVED(morgana_move(negated, sizeof negated, buffer, 0), REFUSED(MORGANA_FACTOR_NOT_ONE, 30));
    UNCOPIED();
    there[56] = 2;
    MOVED(morgana_move(there, sizeof there, buffer, BYTES), REFUSED(MORGANA_FACTOR_NOT_ONE, 45));
    UNCOPIED();
    MOVED(morgana_move(sample, LENGTH, buffer, SCALED_LENGTH - 1),
          REFUSED(MORGANA_BUFFER_TOO_SHORT, SCALED_LENGTH));
    UNCOPIED();
    MOVED(morgana_move(scaled, SCALED_LENGTH, buffer, LENGTH - 1),
          REFUSED(MORGANA_BUFFER_TOO_SHORT, LENGTH));
    UNCOPIED();
    MOVED(morgana_move(sample, LENGTH, NULL, 0), REFUSED(MORGANA_BUFFER_TOO_SHORT, SCALED_LENGTH));
}

int main(void)
{
    numbers();
    constants();
    check_calls();
    evaluate_calls();
    cell_calls();
    compare_calls();
    locate_calls();
    shorter_calls();
    evaluate_quadratic_calls();
    compare_quadratic_calls();
    price_calls();
    move_calls();
    if (faults > 0)
        return EXIT_FAILURE;
    printf("interface: %u numbers are as wanted\n", held);
    return EXIT_SUCCESS;
}
