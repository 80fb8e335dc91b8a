/*
 * How much stack the calls use at the deepest: in the header of a file's root 25 levels of blocks,
 * and in the last of them a type of 32 levels, which is read, and one of 33, which is refused; and
 * the lookup of 32 names in its table, whatever they are. The proofs say nothing of the stack. Each
 * call runs in a thread whose stack is filled with a pattern before, so that it shows how far it
 * was written; what a thread that calls nothing writes is taken off. Fails where a call uses more
 * than dowringaf.h says.
 */
#define _POSIX_C_SOURCE 200809L

#include <pthread.h>
#include <stdio.h>
#include <stdlib.h>
#include <string.h>

#include "dowringaf.h"
#include "lookup3.h"

enum { STACK = 1 << 18, PATTERN = 0xA5, BLOCKS = 25, SUPERBLOCK = 48, ROOM = 4096 };

/* The levels of types that are read. */
enum { MOST_TYPES = 32 };

static uint8_t file[ROOM];
static size_t count;
static uint64_t table[16 * DOWRINGAF_ROW_WORDS];
static const size_t table_words = sizeof table / sizeof table[0];
static uint8_t out[DOWRINGAF_LISTING];
static dowringaf_object object;
static dowringaf_object root_object;
static dowringaf_checked checked;
static dowringaf_checked checked_root;
static size_t listed;
static uint64_t names[2 * DOWRINGAF_MOST_NAMES];
static uint64_t answers[DOWRINGAF_MOST_NAMES];
static uint64_t names_refused = 1;

static void put(uint64_t number, int width)
{
    for (; width != 0; width--) {
        file[count++] = (uint8_t)(number & 255);
        number >>= 8;
    }
}

/* The sum of what was written from a place on. */
static void put_sum(size_t from)
{
    put(lookup3(file + from, count - from), 4);
}

static void put_signature(const char *signature)
{
    memcpy(file + count, signature, strlen(signature));
    count += strlen(signature);
}

/* An entry of type 16 whose block follows, after as many bytes as are given. */
static void put_continuation(size_t after, size_t length)
{
    put(16, 1);
    put(16, 2);
    put(0, 1);
    put(count + 16 + after, 8);
    put(length, 8);
}

/* A variable-length type of such a type, and so on, of a fixed-point type. */
static void put_types(int levels)
{
    int i;

    put(3, 1);
    put((uint64_t)levels * 8 + 4, 2);
    put(0, 1);
    for (i = 1; i < levels; i++) {
        put(0x19, 1);
        put(0, 3);
        put(1, 4);
    }
    put(0x10, 1);
    put(0, 3);
    put(4, 4);
    put(0, 2);
    put(32, 2);
}

/* The superblock, in front of what is written. */
static void write_superblock(void)
{
    size_t bytes = count;

    count = 0;
    put_signature("\211HDF\r\n\032\n");
    put(2, 1);
    put(8, 1);
    put(8, 1);
    put(0, 1);
    put(0, 8);
    put(UINT64_MAX, 8);
    put(bytes, 8);
    put(SUPERBLOCK, 8);
    put_sum(0);
    count = bytes;
}

static void write_deepest(int levels)
{
    size_t from = SUPERBLOCK;
    size_t last = (size_t)levels * 8 + 4 + 4 + 8;
    int i;

    count = from;
    put_signature("OHDR");
    put(2, 1);
    put(0, 1);
    put(20, 1);
    for (i = 0; i < BLOCKS; i++) {
        put_continuation(4, i < BLOCKS - 1 ? 28 : last);
        put_sum(from);
        from = count;
        put_signature("OCHK");
    }
    put_types(levels);
    put_sum(from);
    write_superblock();
}

static void *nothing(void *unused)
{
    return unused;
}

static void *decode(void *unused)
{
    dowringaf_data_object(file, count, SUPERBLOCK, 8, 8, count, table, table_words, &object);
    return unused;
}

static void *decode_root(void *unused)
{
    dowringaf_root_object(file, count, table, table_words, &root_object);
    return unused;
}

static void *check(void *unused)
{
    checked = dowringaf_check_data_object(file, count, SUPERBLOCK, 8, 8, count);
    return unused;
}

static void *check_root(void *unused)
{
    checked_root = dowringaf_check_root_object(file, count);
    return unused;
}

static void *list(void *unused)
{
    listed = dowringaf_list(file, count, out);
    return unused;
}

static void *look_up_names(void *unused)
{
    names_refused = dowringaf_lookup_names(file, count, table, table_words, 16, file, count, names,
                                           2 * DOWRINGAF_MOST_NAMES, answers,
                                           DOWRINGAF_MOST_NAMES);
    return unused;
}

/* The bytes of a thread's stack that were written while it ran. */
static size_t written(void *(*run)(void *))
{
    static union {
        uint8_t bytes[STACK];
        long double aligned;
    } stack;
    pthread_attr_t attributes;
    pthread_t thread;
    size_t i = 0;

    memset(stack.bytes, PATTERN, STACK);
    if (pthread_attr_init(&attributes) != 0 ||
        pthread_attr_setstack(&attributes, stack.bytes, STACK) != 0 ||
        pthread_create(&thread, &attributes, run, NULL) != 0 || pthread_join(thread, NULL) != 0) {
        fputs("no thread\n", stderr);
        exit(2);
    }
    pthread_attr_destroy(&attributes);
    while (i < STACK && stack.bytes[i] == PATTERN) {
        i++;
    }
    return STACK - i;
}

/* Read with one row, or refused for its types. */
static int is_deepest(int levels, uint64_t refused, uint64_t entries, uint64_t rows)
{
    if (levels > MOST_TYPES) {
        return refused == DOWRINGAF_TYPE_LEVEL;
    }
    return refused == 0 && entries == BLOCKS + 1 && rows == 1;
}

/* Whether every call reached the deepest place, and names were looked up. */
static int all_reached(int levels)
{
    const char *line = levels > MOST_TYPES ? "refused,22" : "0,3,";

    return is_deepest(levels, object.refused, object.entries, object.rows) &&
           is_deepest(levels, root_object.refused, root_object.entries, root_object.rows) &&
           is_deepest(levels, checked.refused, checked.entries, checked.rows) &&
           is_deepest(levels, checked_root.refused, checked_root.entries, checked_root.rows) &&
           listed != 0 && memcmp(out, line, strlen(line)) == 0 && names_refused == 0;
}

/* What a call uses, of some bytes that it may; yields 0 where it uses more. */
static int stays_below(const char *name, void *(*run)(void *), size_t none, size_t most)
{
    size_t used = written(run) - none;

    printf("stack: %s %lu\n", name, (unsigned long)used);
    return used <= most;
}

/* The calls on a header with as many levels of types. */
static int all_stay_below(int levels, size_t none)
{
    int below = 1;

    write_deepest(levels);
    printf("stack: %d levels of types\n", levels);
    below &= stays_below("decoding", decode, none, DOWRINGAF_DECODING_STACK);
    below &= stays_below("root", decode_root, none, DOWRINGAF_DECODING_STACK);
    below &= stays_below("check", check, none, DOWRINGAF_DECODING_STACK);
    below &= stays_below("check of the root", check_root, none, DOWRINGAF_DECODING_STACK);
    below &= stays_below("names", look_up_names, none, DOWRINGAF_DECODING_STACK);
    below &= stays_below("listing", list, none, DOWRINGAF_LISTING_STACK);
    if (!all_reached(levels)) {
        puts("the deepest place is not reached");
        return 0;
    }
    return below;
}

int main(void)
{
    size_t none = written(nothing);
    int below = all_stay_below(MOST_TYPES, none);

    below &= all_stay_below(MOST_TYPES + 1, none);
    return below ? 0 : 1;
}
