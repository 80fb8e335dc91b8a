/*
 * Look first, fill later: asks how many rows the header of a file's root takes, sets as many aside
 * and fills them. Written to be copied.
 *
 *   example < FILE
 *
 * Prints the number of rows, and for each the type of its message and, of an attribute, the name,
 * and its number where it has one. A file that is refused prints `refused,` and the refusal's
 * number. The exit status is 0 for either, and 2 where the file is too large for this program,
 * there is no memory, or the library is of another version. A file that is shorter or longer than
 * its superblock says is told of on standard error. Names are written as the bytes that they are,
 * which is not for a terminal: firmware/decode.c escapes them.
 */
#include <inttypes.h>
#include <stdio.h>
#include <stdlib.h>

#include "dowringaf.h"

enum { MOST_BYTES = 1048576 };

/* One byte more, which shows that a file is larger. */
static uint8_t file[MOST_BYTES + 1];
static dowringaf_object object;

static void put_line(const char *name, uint64_t number)
{
    printf("%s,%llu\n", name, (unsigned long long)number);
}

/* A number in the C type of its kind: uint64_t, int64_t, float (which printf widens) or double. */
static void put_number(uint64_t number, uint64_t bits)
{
    switch (number) {
    case DOWRINGAF_NUMBER_UNSIGNED:
        printf(",%" PRIu64, bits);
        break;
    case DOWRINGAF_NUMBER_SIGNED:
        printf(",%" PRId64, dowringaf_signed(bits));
        break;
    case DOWRINGAF_NUMBER_SINGLE:
        printf(",%.9g", (double)dowringaf_single(bits));
        break;
    case DOWRINGAF_NUMBER_DOUBLE:
        printf(",%.17g", dowringaf_double(bits));
        break;
    }
}

/* A row without a name has 0 for its position and its length. */
static void put_row(const uint64_t *row)
{
    printf("%llu,", (unsigned long long)row[DOWRINGAF_ROW_TYPE]);
    fwrite(file + row[DOWRINGAF_ROW_NAME_POSITION], 1, row[DOWRINGAF_ROW_NAME_LENGTH], stdout);
    put_number(row[DOWRINGAF_ROW_NUMBER], row[DOWRINGAF_ROW_NUMBER_BITS]);
    putchar('\n');
}

/*
 * Nothing wrote to the file since it was checked, so that nothing is refused here. The test is for
 * callers whose file may have changed.
 */
static void fill(size_t bytes, uint64_t *table, size_t rows)
{
    uint64_t i;

    dowringaf_root_object(file, bytes, table, rows * DOWRINGAF_ROW_WORDS, &object);
    if (object.refused != 0) {
        put_line("refused", object.refused);
        return;
    }
    for (i = 0; i < object.rows; i++) {
        put_row(table + i * DOWRINGAF_ROW_WORDS);
    }
}

/* That a file was cut, no call says: the caller compares its length with the superblock's. */
static void compare_end(size_t bytes)
{
    dowringaf_superblock block = dowringaf_super_block(file, bytes);

    if (block.refused == 0 && block.end_of_file_address != bytes) {
        fprintf(stderr, "%s: the file has %lu bytes, and its superblock says %" PRIu64 "\n",
                bytes < block.end_of_file_address ? "cut" : "longer", (unsigned long)bytes,
                block.end_of_file_address);
    }
}

int main(void)
{
    size_t bytes = fread(file, 1, sizeof file, stdin);
    dowringaf_checked checked;
    uint64_t *table;

    if (bytes > MOST_BYTES || dowringaf_version() != DOWRINGAF_LIBRARY_VERSION) {
        return 2;
    }
    compare_end(bytes);
    checked = dowringaf_check_root_object(file, bytes);
    if (checked.refused != 0) {
        put_line("refused", checked.refused);
        return 0;
    }
    put_line("rows", checked.rows);
    /* There are at most 4,096 rows, so that no size overflows. For none the table may be NULL. */
    table = calloc(checked.rows, DOWRINGAF_ROW_WORDS * sizeof *table);
    if (table == NULL && checked.rows != 0) {
        return 2;
    }
    fill(bytes, table, checked.rows);
    free(table);
    return 0;
}
