/* compare FIRST SECOND: compares two key files, of any shapes, at a random
 * point over p*p. Prints `same` with the shorter key, `different` with a cell
 * in which the keys differ, or `refused N at P`, with the key at fault behind
 * it. The status is 0, 1 or 2, and 3 where anything else is wrong. Compile it
 * with the shared or with the static library:
 *
 *   cc compare.c -o compare $(pkg-config --cflags --libs morgana)
 *   cc compare.c -o compare $(pkg-config --cflags morgana) \
 *      $(pkg-config --variable=libdir morgana)/libmorgana.a
 */
#include <err.h>
#include <inttypes.h>
#include <morgana.h>
#include <stdio.h>
#include <sys/random.h>

/* One byte more than a key may have, so that a longer file is refused. */
enum { ROOM = MORGANA_KEY_LIMIT + 1 };

static size_t read_key(const char *path, uint8_t bytes[ROOM])
{
    FILE *file = fopen(path, "rb");
    size_t length = file != NULL ? fread(bytes, 1, ROOM, file) : 0;
    if (file == NULL || ferror(file))
        err(3, "%s", path);
    fclose(file);
    return length;
}

/* Draws numbers of 31 bits, each of them again where it is p. */
static void draw(uint32_t *numbers, size_t count)
{
    for (size_t i = 0; i < count; i++)
        do {
            if (getrandom(&numbers[i], sizeof numbers[i], 0) < 4)
                err(3, "getrandom");
            numbers[i] &= MORGANA_P;
        } while (numbers[i] == MORGANA_P);
}

static size_t larger(size_t one, size_t other)
{
    return one > other ? one : other;
}

/* Keeps the u of some coordinates u + v*i, and answers how many there are. */
static size_t keep_u(uint32_t *numbers, size_t length)
{
    for (size_t i = 0; 2 * i < length; i++)
        numbers[i] = numbers[2 * i];
    return length / 2;
}

/* Prints the cell that morgana_locate names. It takes a point over p, and at
 * the u of a random point keys that differ are found the same less than once in
 * 35 million times; then nothing is printed. */
static void print_cell(MorganaLocateReply cell)
{
    if (cell.same)
        return;
    printf("at row %" PRIu32 ", column %" PRIu32 "\n", cell.row, cell.column);
    printf("first A %" PRIu32 " B %" PRIu32 " C %" PRIu32 "\n", cell.first_a,
           cell.first_b, cell.first_c);
    printf("second A %" PRIu32 " B %" PRIu32 " C %" PRIu32 "\n", cell.second_a,
           cell.second_b, cell.second_c);
}

int main(int argc, char **argv)
{
    static const char *const at_fault[] = {"", "; first key", "; second key"};
    static uint8_t first[ROOM], second[ROOM];
    static uint32_t sheet[MORGANA_SHEET_QUADRATIC];
    uint32_t rows[2 * MORGANA_MOST_BITS], columns[2 * MORGANA_MOST_BITS];
    if (argc != 3)
        errx(3, "usage: compare FIRST SECOND");
    if (morgana_version() / 1000 != MORGANA_VERSION / 1000)
        errx(3, "libmorgana is not of the version that this is compiled for");
    size_t first_length = read_key(argv[1], first);
    size_t second_length = read_key(argv[2], second);

    /* A point has the larger bits of the two keys, and two numbers a
     * coordinate. A key that is refused has no bits, and is refused again. */
    MorganaCheckReply one = morgana_check(first, first_length);
    MorganaCheckReply other = morgana_check(second, second_length);
    size_t rows_length = 2 * larger(one.rows, other.rows);
    size_t columns_length = 2 * larger(one.columns, other.columns);
    draw(rows, rows_length);
    draw(columns, columns_length);
    MorganaCompareReply reply = morgana_compare_quadratic(
        first, first_length, second, second_length, rows, rows_length,
        columns, columns_length, sheet, MORGANA_SHEET_QUADRATIC);
    rows_length = keep_u(rows, rows_length);
    columns_length = keep_u(columns, columns_length);

    /* Over p, at the u of the point: where that shows a difference, nothing is
     * handed back. */
    MorganaShorterReply shorter = morgana_shorter(
        first, first_length, second, second_length, rows, rows_length, columns,
        columns_length, sheet, MORGANA_SHEET);
    int same = reply.same && shorter.length > 0;

    if (reply.number != MORGANA_NOT_REFUSED) {
        printf("refused %" PRIu32 " at %" PRIu64 "%s\n", reply.number,
               reply.place, at_fault[reply.key]);
    } else if (same) {
        puts("same");
        printf("keep the %s, %" PRIu64 " bytes\n",
               shorter.key == 1 ? "first" : "second", shorter.length);
    } else {
        puts("different");
        print_cell(morgana_locate(first, first_length, second, second_length,
                                  rows, rows_length, columns, columns_length,
                                  sheet, MORGANA_SHEET));
    }
    if (fflush(stdout) != 0 || ferror(stdout))
        err(3, "standard output");
    return reply.number == MORGANA_NOT_REFUSED ? !same : 2;
}
