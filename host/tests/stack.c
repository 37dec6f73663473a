/* Compares MORGANA_STACK with what the calls of libmorgana.a need.
 *
 * Every case runs in a process of its own on a painted stack of its own, twice; the bytes from the
 * deepest that changed up to the top are what it needs. The first time it is the first call of its
 * process: where the program binds lazily, the loader then binds memset on the same stack. Both
 * include the frame of the C function that calls.
 *
 * With an argument the program prints the greatest need of each call the first time and again, and
 * the keys that it needs most for the first time. */
#define _GNU_SOURCE
#include <morgana.h>

#include <stdio.h>
#include <stdlib.h>
#include <sys/mman.h>
#include <sys/wait.h>
#include <ucontext.h>
#include <unistd.h>

/* A key that is built record by record, and the number that the calls refuse it with. */
typedef struct Key {
    const char *name;
    uint32_t number;
    uint8_t row_bits, column_bits;
    uint32_t factor; /* of each call in edition 2; 0 in edition 1 */
    size_t calls;
    uint64_t factors; /* the count that the calls answer where the key is not refused */
    size_t length;
    uint8_t bytes[MORGANA_KEY_LIMIT + 1];
} Key;

static void put(Key *key, uint32_t number, int bytes)
{
    for (int i = 0; i < bytes; i++)
        key->bytes[key->length++] = (uint8_t)(number >> 8 * i);
}

/* A head or an opening, of kind 1, 2, 3 or 7. */
static void opening(Key *key, int kind, uint8_t row_bits, uint8_t column_bits)
{
    put(key, (uint32_t)kind, 1);
    put(key, row_bits, 1);
    put(key, column_bits, 1);
}

/* A number of so many bits, another for each i. */
static uint32_t spread(int i, int bits)
{
    return (uint32_t)((uint64_t)((uint32_t)i * 2654435761u) >> (32 - bits));
}

/* Cells in an array of all bits. */
static void cells(Key *key, int count)
{
    key->factors += (uint64_t)count * (key->row_bits + key->column_bits);
    for (int i = 0; i < count; i++) {
        put(key, 4, 1);
        put(key, spread(i, key->row_bits), 4);
        put(key, spread(i + 1, key->column_bits), 4);
        for (uint32_t value = 0; value < 3; value++)
            put(key, MORGANA_P - 1 - value, 4);
    }
}

/* Calls from an array that has so many more row and column bits together than the called one. */
static void calls(Key *key, int count, uint16_t called, uint64_t more_bits)
{
    key->factors += (uint64_t)count * more_bits;
    for (int i = 0; i < count; i++, key->calls++) {
        put(key, key->factor != 0 ? 8 : 5, 1);
        put(key, called, 2);
        put(key, (uint32_t)i % 2, 4);
        put(key, (uint32_t)i / 2 % 2, 4);
        if (key->factor != 0)
            put(key, key->factor, 4);
    }
}

static void empties(Key *key, int count)
{
    for (int i = 0; i < count; i++)
        opening(key, 2, key->row_bits, key->column_bits);
}

/* The keys. The code takes tables of other sizes for keys below 192 bytes, and other tables of
 * weights where enough bits are weighed, but never below 88 bytes. */
enum { MOST_KEYS = 24 };
static Key keys[MOST_KEYS];
static int key_count;

static Key *start(const char *name, uint32_t number, uint8_t row_bits, uint8_t column_bits)
{
    if (key_count == MOST_KEYS)
        abort();
    Key *key = &keys[key_count++];
    key->name = name;
    key->number = number;
    key->row_bits = row_bits;
    key->column_bits = column_bits;
    opening(key, 1, row_bits, column_bits);
    return key;
}

/* Makes a key whose head alone is there one of edition 2, unless the factor is 0. */
static void scale(Key *key, uint32_t factor)
{
    key->factor = factor;
    if (factor != 0)
        key->bytes[0] = 7;
}

/* A key of one array of cells. */
static void of_cells(const char *name, uint8_t row_bits, uint8_t column_bits, int count)
{
    Key *key = start(name, 0, row_bits, column_bits);
    opening(key, 2, row_bits, column_bits);
    cells(key, count);
    put(key, 6, 1);
}

/* A key of so many empty arrays, one of one cell without bits, and one that calls it. */
static Key *of_calls(const char *name, int empty, int count, uint32_t factor)
{
    Key *key = start(name, 0, MORGANA_MOST_BITS, MORGANA_MOST_BITS);
    scale(key, factor);
    empties(key, empty);
    opening(key, 2, 0, 0);
    opening(key, 3, MORGANA_MOST_BITS, MORGANA_MOST_BITS);
    calls(key, count, (uint16_t)empty, 2 * MORGANA_MOST_BITS);
    put(key, 6, 1);
    return key;
}

/* A key whose array i has i row and i column bits and calls the one before four times. */
static void tower(const char *name, uint32_t factor)
{
    Key *key = start(name, 0, MORGANA_MOST_BITS, MORGANA_MOST_BITS);
    scale(key, factor);
    opening(key, 2, 0, 0);
    put(key, 4, 1);
    for (uint32_t field = 0; field < 5; field++)
        put(key, field < 2 ? 0 : field, 4);
    for (uint8_t level = 1; level <= MORGANA_MOST_BITS; level++) {
        opening(key, 3, level, level);
        calls(key, 4, level - 1, 2);
    }
    put(key, 6, 1);
}

/* Keys of as many bytes as a key may have, and one of as many arrays. */
static void full(void)
{
    Key *with_calls = of_calls("calls to the limit", 7, 5955, 0);
    Key *with_scaled_calls = of_calls("scaled calls to the limit", 2, 4368, 1);
    Key *with_cells = start("cells to the limit", 0, MORGANA_MOST_BITS, MORGANA_MOST_BITS);
    empties(with_cells, 4);
    cells(with_cells, 3120);
    put(with_cells, 6, 1);
    if (with_calls->length != MORGANA_KEY_LIMIT || with_cells->length != MORGANA_KEY_LIMIT ||
        with_scaled_calls->length != MORGANA_KEY_LIMIT)
        abort();
    Key *key = start("1,024 arrays", 0, MORGANA_MOST_BITS, MORGANA_MOST_BITS);
    empties(key, MORGANA_MOST_ARRAYS);
    cells(key, 100);
    put(key, 6, 1);
}

static void refused(void)
{
    Key *key = start("no key", MORGANA_RECORD_INCOMPLETE, 0, 0);
    key->length = 0;
    key = start("a short key, cut off", MORGANA_RECORD_INCOMPLETE, 30, 30);
    empties(key, 10);
    key = start("a long key, cut off", MORGANA_RECORD_INCOMPLETE, 30, 30);
    empties(key, MORGANA_MOST_ARRAYS);
    key = start("1,025 arrays", MORGANA_ARRAYS_TOO_MANY, 30, 30);
    empties(key, MORGANA_MOST_ARRAYS + 1);
    key = start("a byte above the limit", MORGANA_KEY_TOO_LONG, 30, 30);
    key->length = MORGANA_KEY_LIMIT + 1;
}

static void build(void)
{
    of_cells("an empty array without bits", 0, 0, 0);
    of_cells("3 cells", 30, 30, 3);
    of_calls("5 calls", 0, 5, 0);
    of_calls("4 scaled calls", 0, 4, MORGANA_P - 1);
    of_cells("8 cells", 30, 30, 8);
    of_calls("16 calls", 0, 16, 0);
    of_calls("12 scaled calls", 0, 12, 1);
    of_cells("9 cells", 30, 30, 9);
    of_cells("100 cells", 30, 30, 100);
    of_cells("100 cells without row bits", 0, 30, 100);
    of_cells("100 cells without column bits", 30, 0, 100);
    tower("a tower of 30 levels", 0);
    tower("a scaled tower of 30 levels", MORGANA_P - 1);
    full();
    refused();
}

/* The point and the sheet that are lent, and what is wrong with them. */
enum { RIGHT, ROWS_WRONG, COLUMNS_WRONG, COORDINATE_WRONG, SHEET_WRONG, FAULTS };
static const uint32_t fault_numbers[FAULTS] = {
    MORGANA_NOT_REFUSED, MORGANA_ROW_COUNT_WRONG, MORGANA_COLUMN_COUNT_WRONG,
    MORGANA_COORDINATE_TOO_GREAT, MORGANA_SHEET_TOO_SHORT,
};
static uint32_t rows[2 * MORGANA_MOST_BITS], columns[2 * MORGANA_MOST_BITS];
static uint32_t sheet[MORGANA_SHEET_QUADRATIC];
static size_t rows_length, columns_length, sheet_length;
static uint8_t buffer[MORGANA_KEY_LIMIT];
static size_t buffer_length;
static uint32_t rate;

static int larger(int one, int other)
{
    return one > other ? one : other;
}

/* A point of so many numbers a coordinate, as two keys take it or one that is given twice. */
static void lend(const Key *one, const Key *other, size_t numbers, int fault)
{
    for (uint32_t i = 0; i < 2 * MORGANA_MOST_BITS; i++) {
        rows[i] = 1234567890 + i;
        columns[i] = MORGANA_P - 1 - i;
    }
    size_t row_bits = (size_t)larger(one->row_bits, other->row_bits);
    size_t column_bits = (size_t)larger(one->column_bits, other->column_bits);
    rows_length = numbers * row_bits + (fault == ROWS_WRONG);
    columns_length = numbers * column_bits + (fault == COLUMNS_WRONG);
    if (fault == COORDINATE_WRONG)
        columns[columns_length - 1] = MORGANA_P;
    sheet_length = fault == SHEET_WRONG ? 1 : MORGANA_SHEET_QUADRATIC;
}

/* What a call gives: the number of the refusal, the count of factors, which is also the price at a penny
 * for each, and the length of what it hands back, each 0 where its reply has none. */
typedef struct Got {
    uint32_t number;
    uint64_t factors, length;
} Got;

/* The calls, each on the keys that are lent. */
static const Key *first, *second;
static uint32_t row;
static Got got;

static void check(void)
{
    got.number = morgana_check(first->bytes, first->length).number;
}

static void evaluate(void)
{
    MorganaEvaluateReply reply =
        morgana_evaluate(first->bytes, first->length, rows, rows_length, columns, columns_length,
                         sheet, sheet_length);
    got = (Got){.number = reply.number, .factors = reply.factors};
}

static void evaluate_quadratic(void)
{
    MorganaQuadraticReply reply =
        morgana_evaluate_quadratic(first->bytes, first->length, rows, rows_length, columns,
                                   columns_length, sheet, sheet_length);
    got = (Got){.number = reply.number, .factors = reply.factors};
}

static void cell(void)
{
    MorganaEvaluateReply reply =
        morgana_cell(first->bytes, first->length, row, 0, sheet, sheet_length);
    got = (Got){.number = reply.number, .factors = reply.factors};
}

static void price(void)
{
    MorganaPriceReply reply = morgana_price(first->bytes, first->length, 0, 0, rate);
    got = (Got){.number = reply.number, .factors = reply.pence};
}

static void move(void)
{
    got.number = morgana_move(first->bytes, first->length, buffer, buffer_length).number;
}

static void compare(void)
{
    MorganaCompareReply reply =
        morgana_compare(first->bytes, first->length, second->bytes, second->length, rows,
                        rows_length, columns, columns_length, sheet, sheet_length);
    got = (Got){.number = reply.number, .factors = reply.factors};
}

static void compare_quadratic(void)
{
    MorganaCompareReply reply =
        morgana_compare_quadratic(first->bytes, first->length, second->bytes, second->length, rows,
                                  rows_length, columns, columns_length, sheet, sheet_length);
    got = (Got){.number = reply.number, .factors = reply.factors};
}

static void locate(void)
{
    MorganaLocateReply reply =
        morgana_locate(first->bytes, first->length, second->bytes, second->length, rows,
                       rows_length, columns, columns_length, sheet, sheet_length);
    got = (Got){.number = reply.number};
}

static void shorter(void)
{
    MorganaShorterReply reply =
        morgana_shorter(first->bytes, first->length, second->bytes, second->length, rows,
                        rows_length, columns, columns_length, sheet, sheet_length);
    got = (Got){.length = reply.length};
}

/* The bytes of stack that a call needs. */
typedef struct Need {
    size_t at_first, again;
} Need;

/* A call, its greatest needs, and the keys that it needs most for at first. */
typedef struct Call {
    const char *name;
    void (*run)(void);
    size_t numbers; /* of a coordinate */
    int counted;    /* the keys whose factors its reply counts */
    Need most;
    const Key *first, *second;
} Call;

enum {
    CHECK, CELL, PRICE, MOVE, EVALUATE, EVALUATE_QUADRATIC, COMPARE, COMPARE_QUADRATIC, LOCATE,
    SHORTER, CALLS
};
static Call all[CALLS] = {
    {.name = "morgana_check", .run = check, .numbers = 1},
    {.name = "morgana_cell", .run = cell, .numbers = 1, .counted = 1},
    {.name = "morgana_price", .run = price, .numbers = 1, .counted = 1},
    {.name = "morgana_move", .run = move, .numbers = 1},
    {.name = "morgana_evaluate", .run = evaluate, .numbers = 1, .counted = 1},
    {.name = "morgana_evaluate_quadratic", .run = evaluate_quadratic, .numbers = 2, .counted = 1},
    {.name = "morgana_compare", .run = compare, .numbers = 1, .counted = 2},
    {.name = "morgana_compare_quadratic", .run = compare_quadratic, .numbers = 2, .counted = 2},
    {.name = "morgana_locate", .run = locate, .numbers = 1},
    {.name = "morgana_shorter", .run = shorter, .numbers = 1},
};

/* Ends the program where something is not as wanted. */
static void fail(const char *call, const char *what, size_t wanted, size_t is)
{
    fprintf(stderr, "stack: %s on %s and %s: %s: wanted %zu, got %zu\n", call, first->name,
            second->name, what, wanted, is);
    exit(EXIT_FAILURE);
}

enum { SIZE = 4 * MORGANA_STACK, PAINT = 0xa5 };

/* The bytes of stack that a function needs. The stack is painted without memset, which the program
 * must not have bound before the call. */
static size_t need(void (*run)(void))
{
    static _Alignas(64) volatile uint8_t stack[SIZE];
    static ucontext_t here, there;
    for (size_t i = 0; i < SIZE; i++)
        stack[i] = PAINT;
    if (getcontext(&there) != 0)
        _exit(EXIT_FAILURE);
    there.uc_stack.ss_sp = (void *)stack;
    there.uc_stack.ss_size = SIZE;
    there.uc_link = &here;
    makecontext(&there, run, 0);
    if (swapcontext(&here, &there) != 0)
        _exit(EXIT_FAILURE);
    size_t untouched = 0;
    while (untouched < SIZE && stack[untouched] == PAINT)
        untouched++;
    return SIZE - untouched;
}

/* What the process of a case tells the one that started it. */
typedef struct Told {
    Need need;
    Got got;
} Told;

/* Runs a call in a process of its own. */
static Told run_apart(const Call *call)
{
    static Told *told;
    if (told == NULL)
        told = mmap(NULL, sizeof *told, PROT_READ | PROT_WRITE, MAP_SHARED | MAP_ANONYMOUS, -1, 0);
    pid_t child = told == MAP_FAILED ? -1 : fork();
    if (child == 0) {
        told->need.at_first = need(call->run);
        told->need.again = need(call->run);
        told->got = got;
        _exit(EXIT_SUCCESS);
    }
    int status = 1;
    if (child < 0 || waitpid(child, &status, 0) != child || status != 0)
        fail(call->name, "status of its process", 0, (size_t)status);
    return *told;
}

/* The bits that only one of two keys has. */
static uint64_t unequal(int one, int other)
{
    return (uint64_t)abs(one - other);
}

/* The count of factors in the reply of a call that gives a number: those of the keys, and of the
 * coordinates that a key does not use. */
static uint64_t factors_of(const Call *call, uint32_t number)
{
    uint64_t one = call->counted > 0 ? first->factors : 0;
    uint64_t other = call->counted > 1 ? second->factors : 0;
    uint64_t unused = unequal(first->row_bits, second->row_bits) +
                      unequal(first->column_bits, second->column_bits);
    return number != 0 ? 0 : one + other + (call->counted > 1 ? unused : 0);
}

/* The length of what a call hands back where compare gives a number: of a key and itself that key, and
 * of two keys the shorter or nothing, as they are the same or not. */
static uint64_t length_of(const Call *call, uint32_t number, uint64_t is)
{
    if (call->run != shorter || number != 0 || (first != second && is == 0))
        return 0;
    return first->length < second->length ? first->length : second->length;
}

/* Wants a call to give the number, which morgana_shorter has not, the count of factors and the length
 * and to keep to the stack, and counts what it needs. */
static void hold(Call *call, uint32_t wanted)
{
    Told told = run_apart(call);
    uint64_t length = length_of(call, wanted, told.got.length);
    if (told.got.length != length)
        fail(call->name, "length", length, told.got.length);
    if (call->run != shorter && told.got.number != wanted)
        fail(call->name, "number", wanted, told.got.number);
    if (told.got.factors != factors_of(call, wanted))
        fail(call->name, "factors", factors_of(call, wanted), told.got.factors);
    if (told.need.at_first > MORGANA_STACK)
        fail(call->name, "bytes of stack at most", MORGANA_STACK, told.need.at_first);
    if (told.need.again > call->most.again)
        call->most.again = told.need.again;
    if (told.need.at_first > call->most.at_first) {
        call->most.at_first = told.need.at_first;
        call->first = first;
        call->second = second;
    }
}

/* What the move of a key into so many bytes gives. */
static uint32_t move_number(const Key *key)
{
    size_t more = 4 * key->calls;
    size_t length = key->factor != 0 ? key->length - more : key->length + more;
    if (key->number != 0)
        return key->number;
    if (key->factor > 1)
        return MORGANA_FACTOR_NOT_ONE;
    if (length > MORGANA_KEY_LIMIT)
        return MORGANA_MOVED_TOO_LONG;
    return length > buffer_length ? MORGANA_BUFFER_TOO_SHORT : MORGANA_NOT_REFUSED;
}

/* Every call of one key on a key, with each fault that the key has room for. */
static void hold_key(const Key *key)
{
    first = second = key;
    hold(&all[CHECK], key->number);
    row = 0;
    lend(key, key, 1, RIGHT);
    hold(&all[CELL], key->number);
    row = 1u << key->row_bits;
    hold(&all[CELL], key->number != 0 ? key->number : MORGANA_ADDRESS_OUTSIDE);
    rate = 100;
    hold(&all[PRICE], key->number);
    rate = MORGANA_MOST_RATE + 1;
    hold(&all[PRICE], key->number != 0 ? key->number : MORGANA_RATE_TOO_GREAT);
    for (buffer_length = 1; buffer_length <= sizeof buffer; buffer_length *= sizeof buffer)
        hold(&all[MOVE], move_number(key));
    for (int fault = RIGHT; fault < FAULTS; fault++) {
        if (fault == COORDINATE_WRONG && key->column_bits == 0)
            continue;
        uint32_t wanted = key->number != 0 ? key->number : fault_numbers[fault];
        for (int call = EVALUATE; call < CALLS; call++) {
            lend(key, key, all[call].numbers, fault);
            hold(&all[call], wanted);
        }
    }
}

/* The calls that compare, on two keys. */
static void hold_pair(const Key *one, const Key *other)
{
    first = one;
    second = other;
    uint32_t wanted = one->number != 0 ? one->number : other->number;
    for (int call = COMPARE; call < CALLS; call++) {
        lend(one, other, all[call].numbers, RIGHT);
        hold(&all[call], wanted);
    }
}

static void print(void)
{
    printf("at first  again\n");
    for (const Call *call = all; call < all + CALLS; call++) {
        printf("%8zu %6zu  %s on %s", call->most.at_first, call->most.again, call->name,
               call->first->name);
        if (call->second != call->first)
            printf(" and %s", call->second->name);
        printf("\n");
    }
}

int main(int count, char **arguments)
{
    (void)arguments;
    build();
    for (const Key *one = keys; one < keys + key_count; one++) {
        hold_key(one);
        for (const Key *other = keys; other < keys + key_count; other++)
            hold_pair(one, other);
    }
    size_t most = 0;
    for (const Call *call = all; call < all + CALLS; call++)
        most = call->most.again > most ? call->most.again : most;
    if (count > 1)
        print();
    if (most < MORGANA_STACK / 2) {
        fprintf(stderr, "stack: MORGANA_STACK is %d, and no call needs half of it: %zu at most\n",
                MORGANA_STACK, most);
        return EXIT_FAILURE;
    }
    return EXIT_SUCCESS;
}
