/* Morgana circuit keys: checked, evaluated at a point, asked for single cells,
 * priced, compared, asked where they differ and which is shorter, and moved
 * into the other edition.
 *
 * Link with libmorgana, on Linux on x86-64. The header can be included from C
 * (C99 and later) and from C++ (C++11 and later). Whatever numbers and slices a
 * call is given, it answers: what it cannot work with it refuses.
 *
 * No call takes memory from the heap, does input or output, or keeps anything
 * between calls, so that calls may run at the same time on different sheets and
 * buffers. Keys and points are taken to be public: the time that a call takes
 * depends on them.
 *
 * Slices. A slice is a pointer and then a length, which counts bytes for a key
 * or a buffer and 32-bit numbers otherwise. The pointer of an empty slice may
 * be null. Every other pointer must point at that many bytes or numbers, be
 * aligned as its type is, and nothing else may write to them during the call.
 * The sheet or the buffer must not overlap any other slice of the call; the
 * other slices may overlap each other.
 *
 * Editions. A key is of edition 1 where its head is of kind 01, and of edition
 * 2 where it is of kind 07. In edition 1 calls are of kind 05; in edition 2
 * they are of kind 08 and have a factor below p, by which the called matrices
 * are multiplied. The factor of a call of edition 1 is 1. Every function takes
 * keys of both editions, and those that compare also one of each. The first
 * byte of an accepted key, 1 or 7, tells its edition.
 *
 * The fields. p = 2147483647, and a number of the field is 0 to p - 1. A point
 * is n row coordinates and n' column coordinates below p, where n and n' are
 * the row bits and the column bits of the key's head; for two keys N and N' of
 * them, as 'Comparing' says.
 *
 * For the calls whose names end in _quadratic a coordinate is an element
 * u + v*i of the field of p*p elements, where i*i is -1: two numbers below p, u
 * first. So is each A, B and C: an array has six numbers on the sheet, u and v
 * of A, of B and of C. At a point with every v zero, every u is what the call
 * over p gives, and every v is zero.
 *
 * Comparing. Any two accepted keys can be compared, also of different shapes. N
 * is the larger of their row bits and N' the larger of their column bits, and
 * the point has N row and N' column coordinates. The matrices of a key with
 * fewer bits are read as filled with zeros up to 2^N rows and 2^N' columns,
 * their own places being the first. So each key is evaluated at the first n and
 * the first n' coordinates, by its own head, and its A, B and C are multiplied
 * by 1 - r for each coordinate r that it does not use. These are what is
 * compared; the sheet has what was evaluated, not multiplied. Keys of one shape
 * use all coordinates. All of this holds for morgana_locate too, which compares
 * and, where the keys are different, names a cell in which they differ, and for
 * morgana_shorter, which compares and, where the keys are the same, hands back
 * the shorter one.
 *
 * Sheets. A call needs three places of its sheet, over p*p six, for each array
 * of the key. Where it compares two keys, it needs them for each array of the
 * key with more arrays. MORGANA_SHEET places always suffice, and over p*p
 * MORGANA_SHEET_QUADRATIC places.
 *
 * Replies. `number` is 0 where nothing is refused, and then `place` is 0. Where
 * the call is refused, `number` and `place` give the refusal, every other field
 * but `key` is 0, and the sheet or the buffer is untouched. The reply of
 * morgana_shorter has neither: morgana_compare tells them.
 *
 * Factors. `factors` counts the factors of all weights of the key, one for each
 * coordinate: a cell in an array of k row bits and k' column bits counts
 * k + k', and a call from such an array of one of K and K' bits counts
 * (k - K) + (k' - K'). The factor that a call of edition 2 has counts nothing,
 * and over p*p a coordinate counts one. The records of all arrays count,
 * whether they are called or not, and the point plays no part. So the count is
 * at most (n + n') * (cells + calls), of what morgana_check answers. Where two
 * keys are compared, it is the sum of both keys' counts and, for each key, of
 * the coordinates that it does not use, (N - n) + (N' - n') of them; it comes
 * with "same" and with "different", and is at most
 * (N + N') * (cells + calls of both keys) + 2 * (N + N'). morgana_locate and
 * morgana_shorter count none.
 *
 * Prices. morgana_price answers in whole pence what one evaluation of a key
 * costs, at three rates in hundredths of a penny, each at most
 * MORGANA_MOST_RATE. It takes no point and no sheet, since the point plays no
 * part. The total in hundredths of a penny is
 * cells * per_cell + calls * per_call + factors * per_factor, of the cells and
 * calls that morgana_check answers and of the key's count of factors. It is
 * divided by 100 once, half a penny upwards, and all of it is exact. At the
 * rates 0, 0 and 100 the price is the count of factors itself.
 *
 * Refusals. `number` says what is at fault: it is one of MorganaNumber, which
 * lists the numbers by who is at fault. `place` says where, and the number says
 * what it counts: a place in a key is an offset from the key's first byte. Of
 * several refusals the first in the order that each call gives is answered. Row
 * faults precede column faults, and of several coordinates the first counts.
 *
 * Versions. Replies grow at their end only: a later version may add fields
 * behind the last one, and moves none. As replies are returned by value, a
 * program runs with a library whose major and minor version are those of the
 * header that it was compiled with: morgana_version() / 1000 is then
 * MORGANA_VERSION / 1000. The soname and the symbols of the shared library have
 * both. Versions that differ in the patch alone have one interface.
 */
#ifndef MORGANA_H
#define MORGANA_H

#include <stddef.h>
#include <stdint.h>

#ifdef __cplusplus
extern "C" {
#endif

/* The version that this header belongs to, and all of it as one number. */
#define MORGANA_VERSION_MAJOR 0
#define MORGANA_VERSION_MINOR 7
#define MORGANA_VERSION_PATCH 0
#define MORGANA_VERSION                                                        \
    (1000000 * MORGANA_VERSION_MAJOR + 1000 * MORGANA_VERSION_MINOR +          \
     MORGANA_VERSION_PATCH)

/* The prime p. */
#define MORGANA_P 2147483647u

/* The most bytes of a key, and so of a buffer that suffices for every copy. */
#define MORGANA_KEY_LIMIT 65536

/* The most arrays of a key. */
#define MORGANA_MOST_ARRAYS 1024

/* The most row bits of a key, and the most column bits. */
#define MORGANA_MOST_BITS 30

/* The places of a sheet that suffices for every key, and over p*p. */
#define MORGANA_SHEET 3072
#define MORGANA_SHEET_QUADRATIC 6144

/* The greatest rate that morgana_price takes, in hundredths of a penny. */
#define MORGANA_MOST_RATE 1000000

/* The bytes of stack that suffice for every call: measured, not proved. A call
 * is a chain of a few frames of fixed size, the deepest that of
 * morgana_compare_quadratic, without recursion, so that no key makes it deeper.
 * What the loader needs where it binds the C library's memset and memcpy during
 * the call is counted; what signal handlers need on the same stack is not. */
#define MORGANA_STACK 20480

/* The numbers of refusals, by who is at fault: the condition under which alone
 * each comes, and behind the semicolon its place. */
typedef enum MorganaNumber {
    /* nothing is refused; 0 */
    MORGANA_NOT_REFUSED = 0,

    /* Key author. */

    /* key over 65,536 bytes; 65536 */
    MORGANA_KEY_TOO_LONG = 1,
    /* record missing or cut off; offset of the record's first byte */
    MORGANA_RECORD_INCOMPLETE = 2,
    /* unknown kind; likewise */
    MORGANA_KIND_UNKNOWN = 3,
    /* record not allowed at this point, as a call of the other edition, or end
     * before any array; likewise */
    MORGANA_RECORD_MISPLACED = 4,
    /* head bits over 30, or array bits over the head's; likewise */
    MORGANA_BITS_TOO_MANY = 5,
    /* a 1,025th array; likewise */
    MORGANA_ARRAYS_TOO_MANY = 6,
    /* cell address outside its array; likewise */
    MORGANA_CELL_OUTSIDE = 7,
    /* cell value or factor p or more; likewise */
    MORGANA_VALUE_TOO_GREAT = 8,
    /* called id not earlier; likewise */
    MORGANA_CALLED_NOT_EARLIER = 9,
    /* called array larger in rows or columns; likewise */
    MORGANA_CALLED_TOO_LARGE = 10,
    /* call position too great; likewise */
    MORGANA_POSITION_TOO_GREAT = 11,
    /* last array not of the head's shape; offset of the end */
    MORGANA_LAST_SHAPE_WRONG = 12,
    /* bytes after the end; offset of the first */
    MORGANA_BYTES_AFTER_END = 13,

    /* Sender of the point. */

    /* row count not n, or N of two keys (_quadratic: not twice as many
     * numbers); the count received */
    MORGANA_ROW_COUNT_WRONG = 21,
    /* column count not n', or N' of two keys (_quadratic: not twice as many
     * numbers); likewise */
    MORGANA_COLUMN_COUNT_WRONG = 22,
    /* coordinate p or more; its index, rows first (_quadratic: the number's) */
    MORGANA_COORDINATE_TOO_GREAT = 23,
    /* row or column outside the last array; 0 for the row, 1 for the column */
    MORGANA_ADDRESS_OUTSIDE = 24,

    /* Calling program. */

    /* sheet below 3 * arrays (_quadratic: 6 * arrays); the length needed */
    MORGANA_SHEET_TOO_SHORT = 31,
    /* copy doesn't fit the buffer; the copy's length */
    MORGANA_BUFFER_TOO_SHORT = 32,

    /* Who moves a key. */

    /* a factor other than 1 on the way back; offset of its call */
    MORGANA_FACTOR_NOT_ONE = 55,
    /* moved key over 65,536 bytes; its length */
    MORGANA_MOVED_TOO_LONG = 56,

    /* Who sets the rates. */

    /* a rate over 1,000,000; 0 per cell, 1 per call, 2 per factor */
    MORGANA_RATE_TOO_GREAT = 62,
} MorganaNumber;

/* What morgana_check answers. */
typedef struct MorganaCheckReply {
    uint32_t number;  /* the number of the refusal, or 0 */
    uint64_t place;   /* the place of the refusal, or 0 */
    uint32_t arrays;  /* how many arrays the key has */
    uint32_t cells;   /* how many cells */
    uint32_t calls;   /* how many calls, of either edition */
    uint32_t rows;    /* the head's row bits n */
    uint32_t columns; /* the head's column bits n' */
} MorganaCheckReply;

/* What morgana_evaluate and morgana_cell answer. */
typedef struct MorganaEvaluateReply {
    uint32_t number;  /* the number of the refusal, or 0 */
    uint64_t place;   /* the place of the refusal, or 0 */
    uint32_t a;       /* the last array's A */
    uint32_t b;       /* the last array's B */
    uint32_t c;       /* the last array's C */
    uint64_t factors; /* the key's count of factors; 0 where it is refused */
} MorganaEvaluateReply;

/* What morgana_evaluate_quadratic answers. */
typedef struct MorganaQuadraticReply {
    uint32_t number;  /* the number of the refusal, or 0 */
    uint64_t place;   /* the place of the refusal, or 0 */
    uint32_t a_u;     /* the last array's A: u */
    uint32_t a_v;     /* and v */
    uint32_t b_u;     /* the last array's B: u */
    uint32_t b_v;     /* and v */
    uint32_t c_u;     /* the last array's C: u */
    uint32_t c_v;     /* and v */
    uint64_t factors; /* the key's count of factors; 0 where it is refused */
} MorganaQuadraticReply;

/* What morgana_compare and morgana_compare_quadratic answer. */
typedef struct MorganaCompareReply {
    uint32_t number;  /* the number of the refusal, or 0 */
    uint64_t place;   /* the place of the refusal, or 0 */
    uint32_t key;     /* the key at fault: 1 first, 2 second, 0 neither */
    uint32_t same;    /* 1 for "same", 0 for "different" */
    uint64_t factors; /* the count of factors of both; 0 where it is refused */
} MorganaCompareReply;

/* What morgana_locate answers. */
typedef struct MorganaLocateReply {
    uint32_t number;   /* the number of the refusal, or 0 */
    uint64_t place;    /* the place of the refusal, or 0 */
    uint32_t key;      /* the key at fault: 1 first, 2 second, 0 neither */
    uint32_t same;     /* 1 for "same", and then all that follows is 0 */
    uint32_t row;      /* the row of a cell in which the keys differ */
    uint32_t column;   /* its column */
    uint32_t first_a;  /* the first key's A there; 0 beyond its own shape */
    uint32_t first_b;  /* its B */
    uint32_t first_c;  /* its C */
    uint32_t second_a; /* the second key's A there; 0 beyond its own shape */
    uint32_t second_b; /* its B */
    uint32_t second_c; /* its C */
} MorganaLocateReply;

/* What morgana_shorter answers. */
typedef struct MorganaShorterReply {
    uint32_t key;    /* what is handed back: 1 the first key, 2 the second, 0
                        the empty beginning of the first */
    uint64_t length; /* its bytes: the length of that key, or 0 */
} MorganaShorterReply;

/* What morgana_price answers. */
typedef struct MorganaPriceReply {
    uint32_t number; /* the number of the refusal, or 0 */
    uint64_t place;  /* the place of the refusal, or 0 */
    uint64_t pence;  /* the price in whole pence */
} MorganaPriceReply;

/* What morgana_move answers. */
typedef struct MorganaMoveReply {
    uint32_t number; /* the number of the refusal, or 0 */
    uint64_t place;  /* the place of the refusal, or 0 */
    uint64_t length; /* the bytes of the copy */
} MorganaMoveReply;

/* The version of the library that the program runs with, as MORGANA_VERSION
 * gives the header's. */
uint32_t morgana_version(void);

/* Answers the counts of an accepted key, with n and n'. Refuses with 1, then
 * record by record with 2 for no byte, 3, 2 for a cut body, 4, 6, 5, 7 to 12 by
 * number, 13. */
MorganaCheckReply morgana_check(const uint8_t *key, size_t key_length);

/* Answers the last array's A, B and C at a point and the count of factors, and
 * writes every array's triple into the sheet, array i's at 3i; places from
 * 3 * arrays on stay. Refuses as morgana_check does, then with 21, 22, 23, 31.
 */
MorganaEvaluateReply morgana_evaluate(const uint8_t *key, size_t key_length,
                                      const uint32_t *rows, size_t rows_length,
                                      const uint32_t *columns,
                                      size_t columns_length,
                                      uint32_t *sheet, size_t sheet_length);

/* Answers the last array's dense A, B and C at a row and a column and the count
 * of factors; the sheet is then as after morgana_evaluate at the point whose
 * coordinates are the bits of row and column, lowest first. Refuses as
 * morgana_check does, then with 24, 31. */
MorganaEvaluateReply morgana_cell(const uint8_t *key, size_t key_length,
                                  uint32_t row, uint32_t column,
                                  uint32_t *sheet, size_t sheet_length);

/* Answers "same" if two keys of any shapes, each read as filled with zeros,
 * have the same A, B and C at a point of N row and N' column coordinates, else
 * "different", and the count of factors of both. Keys of one
 * shape are "same" if morgana_evaluate answers equal A, B and C for both. The
 * sheet is then as after evaluating the first key at its own first n and n'
 * coordinates and then the second at its own. Refuses as morgana_check does for
 * the first key, then for the second, and `key` says which; then with 21 and 22
 * by N and N', 23, and 31 for the key with more arrays, where `key` is 0. */
MorganaCompareReply morgana_compare(const uint8_t *first, size_t first_length,
                                    const uint8_t *second, size_t second_length,
                                    const uint32_t *rows, size_t rows_length,
                                    const uint32_t *columns,
                                    size_t columns_length,
                                    uint32_t *sheet, size_t sheet_length);

/* Compares two keys at a point as morgana_compare does. Where they are "same"
 * there, it answers that, and the sheet is as morgana_compare leaves it. Where
 * they are "different", it answers the row and the column of a cell in which
 * they differ, and the dense A, B and C of both last arrays in that cell, zero
 * beyond a key's own 2^n rows and 2^n' columns: at least one of the three
 * differs. The cell is found from the point by N + N' further comparisons. The
 * coordinates are gone through once, rows first: each is set to 0, and where
 * the keys are "same" at the point so changed, to 1. Then the point is the bits
 * of row and column, lowest first. Cells before this one may differ too. The
 * sheet is then as after morgana_compare at that point. Refuses as
 * morgana_compare does. */
MorganaLocateReply morgana_locate(const uint8_t *first, size_t first_length,
                                  const uint8_t *second, size_t second_length,
                                  const uint32_t *rows, size_t rows_length,
                                  const uint32_t *columns,
                                  size_t columns_length,
                                  uint32_t *sheet, size_t sheet_length);

/* Compares two keys at a point as morgana_compare does, and hands back the
 * shorter of the two where that says "same": the lent key itself, whole, the
 * first where both have one length. Where morgana_compare says "different" or
 * refuses, it hands back the empty beginning of the first key. No accepted key
 * is empty, so `length` is 0 exactly where morgana_compare does not say "same".
 * There is no number and no place: morgana_compare on the same slices tells
 * them. The sheet is as morgana_compare leaves it, and so untouched where that
 * refuses. A key with calls has another length once morgana_move has moved it,
 * so that the other of the two keys may be handed back then. */
MorganaShorterReply morgana_shorter(const uint8_t *first, size_t first_length,
                                    const uint8_t *second, size_t second_length,
                                    const uint32_t *rows, size_t rows_length,
                                    const uint32_t *columns,
                                    size_t columns_length,
                                    uint32_t *sheet, size_t sheet_length);

/* Answers the last array's A, B and C at a point of two numbers a coordinate
 * and the count of factors, and writes every array's six numbers into the
 * sheet, array i's at 6i; places from 6 * arrays on stay. Refuses as
 * morgana_check does, then with 21, 22, 23, 31. */
MorganaQuadraticReply
morgana_evaluate_quadratic(const uint8_t *key, size_t key_length,
                           const uint32_t *rows, size_t rows_length,
                           const uint32_t *columns, size_t columns_length,
                           uint32_t *sheet, size_t sheet_length);

/* The same over p*p: the point has 2N numbers for the rows and 2N' for the
 * columns, and the sheet is then as after morgana_evaluate_quadratic on the
 * first key at its own coordinates and then on the second at its own. Refuses
 * as morgana_compare does, with 21 and 22 by 2N and 2N'. */
MorganaCompareReply
morgana_compare_quadratic(const uint8_t *first, size_t first_length,
                          const uint8_t *second, size_t second_length,
                          const uint32_t *rows, size_t rows_length,
                          const uint32_t *columns, size_t columns_length,
                          uint32_t *sheet, size_t sheet_length);

/* Answers in whole pence what one evaluation of the key costs at these rates,
 * which are hundredths of a penny: cells * per_cell + calls * per_call +
 * factors * per_factor, divided by 100 once, half a penny upwards. Refuses as
 * morgana_check does, then with 62, where of several rates the first counts. */
MorganaPriceReply morgana_price(const uint8_t *key, size_t key_length,
                                uint32_t per_cell, uint32_t per_call,
                                uint32_t per_factor);

/* Copies a key, to the start of the buffer, into the edition that its head is
 * not: heads change between 01 and 07 and calls between 05 and 08, which have
 * factor 1; all else is copied byte for byte. So the copy is a key with the
 * same counts and matrices, and moving it gives the first bytes again. Answers
 * the copy's length; the bytes behind it stay. Refuses as morgana_check does,
 * then with 55 (from edition 2 to edition 1 alone: the first call whose factor
 * is not 1), 56, 32. */
MorganaMoveReply morgana_move(const uint8_t *key, size_t key_length,
                              uint8_t *buffer, size_t buffer_length);

#ifdef __cplusplus
}
#endif

#endif
