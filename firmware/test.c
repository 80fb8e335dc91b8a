/*
 * Calls every function of the library, and compares every word that it hands over. Nothing but this
 * and the comparison of declarations in `build` ties dowringaf.h to the library.
 *
 * Every block that a call is given has exactly the bytes that the call is told of, so that a memory
 * checker sees a read or a write beyond them. Headers, their blocks and superblocks have their true
 * sums, unless it is said that they are false.
 */
#define _DEFAULT_SOURCE /* for MAP_ANONYMOUS and MAP_NORESERVE */
#include <stddef.h>
#include <stdio.h>
#include <stdlib.h>
#include <string.h>
#include <sys/mman.h>

#include "dowringaf.h"
#include "lookup3.h"
#include "refusals.h"

/* Words of 64 bits, and nothing between them. */
#define HAS_WORDS(type, n) typedef char type##_has_its_words[sizeof(type) == (n) * 8 ? 1 : -1]

HAS_WORDS(dowringaf_optional, 2);
HAS_WORDS(dowringaf_address, 2);
HAS_WORDS(dowringaf_optional_address, 3);
HAS_WORDS(dowringaf_dimensions, 5);
HAS_WORDS(dowringaf_elements, 2);
HAS_WORDS(dowringaf_dataspace, 16);
HAS_WORDS(dowringaf_format, 8);
HAS_WORDS(dowringaf_datatype, 13);
HAS_WORDS(dowringaf_link_info, 10);
HAS_WORDS(dowringaf_group_info, 9);
HAS_WORDS(dowringaf_attribute_info, 8);
HAS_WORDS(dowringaf_part, 2);
HAS_WORDS(dowringaf_layout, 5);
HAS_WORDS(dowringaf_object, DOWRINGAF_OBJECT_WORDS);
HAS_WORDS(dowringaf_checked, 4);
HAS_WORDS(dowringaf_found, 3);
HAS_WORDS(dowringaf_superblock, 8);

/* The word that a member of an object begins with. */
#define BEGINS_AT(name, member, n) \
    typedef char name##_begins_there[offsetof(dowringaf_object, member) == (n) * 8 ? 1 : -1]

/* That of the elements, which are 1 where no dataspace is read. */
enum { ELEMENTS = 19 };

BEGINS_AT(refused, refused, 0);
BEGINS_AT(next, next, 1);
BEGINS_AT(entries, entries, 2);
BEGINS_AT(rows, rows, 3);
BEGINS_AT(dataspace, dataspace, 4);
BEGINS_AT(kind, dataspace.kind, 6);
BEGINS_AT(size, dataspace.size, 8);
BEGINS_AT(maximum_size, dataspace.maximum_size, 13);
BEGINS_AT(too_many, dataspace.elements.too_many, 18);
BEGINS_AT(elements, dataspace.elements.number, ELEMENTS);
BEGINS_AT(datatype, datatype, 20);
BEGINS_AT(link_info, link_info, 33);
BEGINS_AT(group_info, group_info, 43);
BEGINS_AT(attribute_info, attribute_info, 52);
BEGINS_AT(layout, layout, 60);
BEGINS_AT(data, layout.data, 63);

static unsigned long compared = 0;
static unsigned long failed = 0;

static void compare(int line, const char *what, uint64_t got, uint64_t expected)
{
    compared++;
    if (got != expected) {
        failed++;
        printf("test.c:%d: %s is %llu, not %llu\n", line, what, (unsigned long long)got,
               (unsigned long long)expected);
    }
}

#define IS(got, expected) compare(__LINE__, #got, (got), (expected))

/* A block of n elements; for none, NULL. */
static void *block(size_t n, size_t size)
{
    void *at;

    if (n == 0) {
        return NULL;
    }
    at = malloc(n * size);
    if (at == NULL) {
        fputs("no memory\n", stderr);
        exit(2);
    }
    return at;
}

/* A copy of n bytes, in a block of its own. */
static uint8_t *copy(const uint8_t *from, size_t n)
{
    uint8_t *at = block(n, 1);

    if (n != 0) {
        memcpy(at, from, n);
    }
    return at;
}

/* A table that holds ones, so that it shows whether a call wrote it. */
static uint64_t *ones(size_t words)
{
    uint64_t *table = block(words, sizeof *table);
    size_t i;

    for (i = 0; i < words; i++) {
        table[i] = UINT64_MAX;
    }
    return table;
}

/* An object that holds ones. */
static dowringaf_object *object_of_ones(void)
{
    return (dowringaf_object *)ones(sizeof(dowringaf_object) / sizeof(uint64_t));
}

/* A file that is written from its start on. */
struct writer {
    uint8_t bytes[1024];
    size_t count;
};

static void put(struct writer *w, uint64_t number, int width)
{
    for (; width != 0; width--) {
        w->bytes[w->count++] = (uint8_t)(number & 255);
        number >>= 8;
    }
}

static void put_text(struct writer *w, const char *text)
{
    for (; *text != '\0'; text++) {
        w->bytes[w->count++] = (uint8_t)*text;
    }
}

/* Makes the sum true that stands at the end of some bytes. */
static void make_true(uint8_t *bytes, size_t from, size_t end)
{
    uint32_t sum = lookup3(bytes + from, end - from);
    int i;

    for (i = 0; i < 4; i++) {
        bytes[end + (size_t)i] = (uint8_t)(sum >> i * 8 & 255);
    }
}

/* The sum of what was written from a place on. */
static void put_sum(struct writer *w, size_t from)
{
    make_true(w->bytes, from, w->count);
    w->count += 4;
}

/* Type, size and flags of an entry. */
static size_t entry(struct writer *w, int type, int size, int flags)
{
    put(w, (uint64_t)type, 1);
    put(w, (uint64_t)size, 2);
    put(w, (uint64_t)flags, 1);
    return w->count;
}

/* All ones in a width. */
static uint64_t most(int width)
{
    return UINT64_MAX >> (64 - 8 * width);
}

/* What is handed over of an address that stands in a width. */
static dowringaf_address address_of(uint64_t stored, int width)
{
    dowringaf_address address;

    address.undefined = stored == most(width) ? 1 : 0;
    address.number = stored == most(width) ? 0 : stored;
    return address;
}

static dowringaf_optional_address present_address_of(uint64_t stored, int width)
{
    dowringaf_address address = address_of(stored, width);
    dowringaf_optional_address present;

    present.present = 1;
    present.undefined = address.undefined;
    present.number = address.number;
    return present;
}

/* The bytes of a superblock's signature, and where other fields begin. */
enum {
    SIGNATURE_BYTES = 8,
    VERSION_AT = 8,
    OFFSET_AT = 9,
    LENGTH_AT = 10,
    FLAGS_AT = 11,
    BASE_AT = 12
};

/* A superblock of version 3, with any flags. */
static void put_superblock(struct writer *w, int offset_width, int length_width, uint64_t extension,
                           uint64_t end, uint64_t root)
{
    put_text(w, "\211HDF\r\n\032\n");
    put(w, 3, 1);
    put(w, (uint64_t)offset_width, 1);
    put(w, (uint64_t)length_width, 1);
    put(w, 0x55, 1);
    put(w, 0, offset_width);
    put(w, extension, offset_width);
    put(w, end, offset_width);
    put(w, root, offset_width);
    put_sum(w, 0);
}

/* The full header lies some bytes behind the superblock. */
enum { OFFSET = 8, LENGTH = 4, SUPERBLOCK = 48, HEADER_FROM = SUPERBLOCK + 3, MESSAGES = 7 };

/* Words for its rows, with some more that make no row; and one word too few. */
enum { LENT = MESSAGES * DOWRINGAF_ROW_WORDS + 5, TOO_FEW = MESSAGES * DOWRINGAF_ROW_WORDS - 1 };

/* Where the pieces of the full header lie. */
struct places {
    size_t body[MESSAGES];
    size_t name;
    size_t value;
    size_t data;
    size_t next;
};

static void write_infos(struct writer *w, struct places *p)
{
    p->body[2] = entry(w, 2, 34, 0);
    put(w, 0, 1);
    put(w, 67, 1);
    put(w, 0x1112131415161718u, 8);
    put(w, 0x2122232425262728u, OFFSET);
    put(w, 0x3132333435363738u, OFFSET);
    put(w, 0x4142434445464748u, OFFSET);
    p->body[3] = entry(w, 10, 10, 0);
    put(w, 0, 1);
    put(w, 131, 1);
    put(w, 0x5152, 2);
    put(w, 0x5354, 2);
    put(w, 0x5556, 2);
    put(w, 0x5758, 2);
    p->body[4] = entry(w, 21, 28, 0);
    put(w, 0, 1);
    put(w, 195, 1);
    put(w, 0x6162, 2);
    put(w, 0x7172737475767778u, OFFSET);
    put(w, 0x8182838485868788u, OFFSET);
    put(w, 0x9192939495969798u, OFFSET);
}

/* A variable-length type of doubles. */
static void write_datatype(struct writer *w, struct places *p)
{
    p->body[1] = entry(w, 3, 28, 4);
    put(w, 0x39, 1);
    put(w, 0x0A0B0C, 3);
    put(w, 16, 4);
    put(w, 0x11, 1);
    put(w, 0x3F20, 3);
    put(w, 8, 4);
    put(w, 0, 2);
    put(w, 64, 2);
    put(w, 52, 1);
    put(w, 11, 1);
    put(w, 0, 1);
    put(w, 52, 1);
    put(w, 1023, 4);
}

/* Name `Unit`, a text of five bytes, one element. */
static void write_attribute(struct writer *w, struct places *p)
{
    p->body[5] = entry(w, 12, 31, 0);
    put(w, 3, 1);
    put(w, 0, 1);
    put(w, 5, 2);
    put(w, 8, 2);
    put(w, 4, 2);
    put(w, 0, 1);
    p->name = w->count;
    put_text(w, "Unit");
    put(w, 0, 1);
    put(w, 0x13, 1);
    put(w, 0, 3);
    put(w, 5, 4);
    put(w, 2, 1);
    put(w, 0, 3);
    p->value = w->count;
    put_text(w, "metre");
}

/* A dataspace, of which flag 0 brings the maxima. In version 1 the kind is the reserved bytes. */
struct space {
    uint64_t version;
    uint64_t count;
    uint64_t flags;
    uint64_t kind;
    uint64_t sizes[4];
    uint64_t maxima[4];
};

static void put_numbers(struct writer *w, const uint64_t *numbers, uint64_t count, int width)
{
    uint64_t i;

    for (i = 0; i < count; i++) {
        put(w, numbers[i], width);
    }
}

static void put_space(struct writer *w, const struct space *s)
{
    put(w, s->version, 1);
    put(w, s->count, 1);
    put(w, s->flags, 1);
    put(w, s->kind, s->version == 1 ? 5 : 1);
    put_numbers(w, s->sizes, s->count, LENGTH);
    put_numbers(w, s->maxima, s->flags & 1 ? s->count : 0, LENGTH);
}

static void write_dataspace(struct writer *w, struct places *p)
{
    static const struct space space = {2, 4, 33, 77, {101, 102, 103, 104}, {201, 202, 203, 204}};

    p->body[0] = entry(w, 1, 36, 1);
    put_space(w, &space);
}

/* The superblock in front of the full header. */
static void write_front(struct writer *w, uint64_t extension, uint64_t end)
{
    size_t count = w->count;

    w->count = 0;
    put_superblock(w, OFFSET, LENGTH, extension, end, HEADER_FROM);
    w->count = count;
}

/* The header of a root. Its entries follow, and what closes it. */
static void begin_root(struct writer *w)
{
    w->count = SUPERBLOCK;
    put_text(w, "xyz");
    put_text(w, "OHDR");
    put(w, 2, 1);
    put(w, 1, 1);
    put(w, 0, 2);
}

static void end_root(struct writer *w)
{
    size_t bytes = w->count - HEADER_FROM - 8;

    w->bytes[HEADER_FROM + 6] = (uint8_t)(bytes % 256);
    w->bytes[HEADER_FROM + 7] = (uint8_t)(bytes / 256);
    put_sum(w, HEADER_FROM);
}

/*
 * A file whose root has a header in which every field has a value of its own, as far as the format
 * leaves it free.
 */
static void write_full(struct writer *w, struct places *p)
{
    begin_root(w);
    write_dataspace(w, p);
    write_datatype(w, p);
    write_infos(w, p);
    write_attribute(w, p);
    p->body[6] = entry(w, 8, 14, 0);
    p->data = w->count + 14 + 4;
    p->next = p->data;
    put(w, 3, 1);
    put(w, 1, 1);
    put(w, p->data, OFFSET);
    put(w, 9, LENGTH);
    end_root(w);
    put_text(w, "the bytes");
    write_front(w, 0xA1A2A3A4A5A6A7A8u, w->count);
}

/* The same file with every address undefined that may be. */
static void write_undefined(struct writer *w, struct places *p)
{
    write_full(w, p);
    memset(w->bytes + p->body[2] + 10, 255, 3 * OFFSET);
    memset(w->bytes + p->body[4] + 4, 255, 3 * OFFSET);
    memset(w->bytes + p->body[6] + 2, 255, OFFSET);
    make_true(w->bytes, HEADER_FROM, p->next - 4);
    write_front(w, UINT64_MAX, w->count);
}

static void compare_spaces(const dowringaf_dataspace *s)
{
    IS(s->dimensionality, 4);
    IS(s->flags, 33);
    IS(s->kind.present, 1);
    IS(s->kind.value, 77);
    IS(s->size.count, 4);
    IS(s->size.sizes[0], 101);
    IS(s->size.sizes[1], 102);
    IS(s->size.sizes[2], 103);
    IS(s->size.sizes[3], 104);
    IS(s->maximum_size.count, 4);
    IS(s->maximum_size.sizes[0], 201);
    IS(s->maximum_size.sizes[1], 202);
    IS(s->maximum_size.sizes[2], 203);
    IS(s->maximum_size.sizes[3], 204);
    IS(s->elements.too_many, 0);
    IS(s->elements.number, 110355024);
}

static void compare_types(const dowringaf_datatype *t)
{
    IS(t->class_and_version, 0x39);
    IS(t->class_bit_field, 0x0A0B0C);
    IS(t->size, 16);
    IS(t->list_size.present, 1);
    IS(t->list_size.value, 16);
    IS(t->format.kind, DOWRINGAF_FORMAT_FLOAT);
    IS(t->format.bit_offset, 0);
    IS(t->format.bit_precision, 64);
    IS(t->format.exponent_location, 52);
    IS(t->format.exponent_size, 11);
    IS(t->format.mantissa_location, 0);
    IS(t->format.mantissa_size, 52);
    IS(t->format.exponent_bias, 1023);
}

static void compare_infos(const dowringaf_object *o)
{
    IS(o->link_info.flags, 67);
    IS(o->link_info.maximum_creation_index.present, 1);
    IS(o->link_info.maximum_creation_index.value, 0x1112131415161718u);
    IS(o->link_info.fractal_heap_address.undefined, 0);
    IS(o->link_info.fractal_heap_address.number, 0x2122232425262728u);
    IS(o->link_info.address_btree_index.undefined, 0);
    IS(o->link_info.address_btree_index.number, 0x3132333435363738u);
    IS(o->link_info.address_btree_order.present, 1);
    IS(o->link_info.address_btree_order.undefined, 0);
    IS(o->link_info.address_btree_order.number, 0x4142434445464748u);
    IS(o->group_info.flags, 131);
    IS(o->group_info.maximum_compact_value.present, 1);
    IS(o->group_info.maximum_compact_value.value, 0x5152);
    IS(o->group_info.minimum_dense_value.present, 1);
    IS(o->group_info.minimum_dense_value.value, 0x5354);
    IS(o->group_info.number_of_entries.present, 1);
    IS(o->group_info.number_of_entries.value, 0x5556);
    IS(o->group_info.length_of_entries.present, 1);
    IS(o->group_info.length_of_entries.value, 0x5758);
    IS(o->attribute_info.flags, 195);
    IS(o->attribute_info.maximum_creation_index, 0x6162);
    IS(o->attribute_info.fractal_heap_address.undefined, 0);
    IS(o->attribute_info.fractal_heap_address.number, 0x7172737475767778u);
    IS(o->attribute_info.attribute_name_btree.undefined, 0);
    IS(o->attribute_info.attribute_name_btree.number, 0x8182838485868788u);
    IS(o->attribute_info.attribute_creation_order_btree.undefined, 0);
    IS(o->attribute_info.attribute_creation_order_btree.number, 0x9192939495969798u);
}

static void compare_layouts(const dowringaf_layout *l, uint64_t data)
{
    IS(l->address.present, 1);
    IS(l->address.undefined, 0);
    IS(l->address.number, data);
    IS(l->data.position, data);
    IS(l->data.length, 9);
}

/* The sizes of the full header's messages. */
static const uint64_t sizes[MESSAGES] = {36, 28, 34, 10, 28, 31, 14};

/* The rows, the name and the parts among them, and zeros after them. */
static void compare_rows(const uint64_t *table, size_t words, const struct places *p)
{
    static const uint64_t types[MESSAGES] = {1, 3, 2, 10, 21, 12, 8};
    static const uint64_t flags[MESSAGES] = {1, 4, 0, 0, 0, 0, 0};
    size_t i;

    for (i = 0; i < MESSAGES; i++) {
        const uint64_t *row = table + i * DOWRINGAF_ROW_WORDS;
        int is_attribute = types[i] == 12;
        int has_part = is_attribute || types[i] == 8;

        IS(row[DOWRINGAF_ROW_TYPE], types[i]);
        IS(row[DOWRINGAF_ROW_FLAGS], flags[i]);
        IS(row[DOWRINGAF_ROW_SIZE], sizes[i]);
        IS(row[DOWRINGAF_ROW_BODY], p->body[i]);
        IS(row[DOWRINGAF_ROW_NAME], is_attribute ? 1 : 0);
        IS(row[DOWRINGAF_ROW_NAME_POSITION], is_attribute ? p->name : 0);
        IS(row[DOWRINGAF_ROW_NAME_LENGTH], is_attribute ? 4 : 0);
        IS(row[DOWRINGAF_ROW_PART], has_part ? 1 : 0);
        IS(row[DOWRINGAF_ROW_PART_POSITION], is_attribute ? p->value : has_part ? p->data : 0);
        IS(row[DOWRINGAF_ROW_PART_LENGTH], is_attribute ? 5 : has_part ? 9 : 0);
        IS(row[DOWRINGAF_ROW_NUMBER], DOWRINGAF_NUMBER_NONE);
        IS(row[DOWRINGAF_ROW_NUMBER_BITS], 0);
    }
    for (i = MESSAGES * DOWRINGAF_ROW_WORDS; i < words; i++) {
        IS(table[i], 0);
    }
}

static void look_up(const uint8_t *file, size_t bytes, const uint64_t *table, size_t words,
                    size_t rows, const char *name, uint64_t refused, uint64_t found, uint64_t row)
{
    size_t n = strlen(name);
    uint8_t *wanted = copy((const uint8_t *)name, n);
    dowringaf_found answer = dowringaf_lookup(file, bytes, table, words, rows, wanted, n);

    IS(answer.refused, refused);
    IS(answer.found, found);
    IS(answer.row, row);
    free(wanted);
}

/* What stands beside the number of a refusal: one element, and zeros. */
static void compare_refused(const dowringaf_object *o, const uint64_t *table, size_t words)
{
    uint64_t all[sizeof *o / sizeof(uint64_t)];
    size_t i;

    memcpy(all, o, sizeof all);
    for (i = 1; i < sizeof all / sizeof all[0]; i++) {
        IS(all[i], i == ELEMENTS ? 1 : 0);
    }
    for (i = 0; i < words; i++) {
        IS(table[i], 0);
    }
}

/* A header in a file, as both operations are given it. */
struct header {
    const uint8_t *file;
    size_t bytes;
    uint64_t position;
    uint64_t offset_width;
    uint64_t length_width;
    uint64_t end;
};

/* One that is read by the widths of the full header. */
static struct header header_at(const uint8_t *file, size_t bytes, uint64_t position, uint64_t end)
{
    struct header h;

    h.file = file;
    h.bytes = bytes;
    h.position = position;
    h.offset_width = OFFSET;
    h.length_width = LENGTH;
    h.end = end;
    return h;
}

static dowringaf_checked refused_with(uint64_t number)
{
    dowringaf_checked refused = {0, 0, 0, 0};

    refused.refused = number;
    return refused;
}

static dowringaf_checked passed_with(uint64_t next, uint64_t entries, uint64_t rows)
{
    dowringaf_checked passed = {0, 0, 0, 0};

    passed.next = next;
    passed.entries = entries;
    passed.rows = rows;
    return passed;
}

/* What the filling says of a header, in the words of the check. */
static dowringaf_checked checked_of(const dowringaf_object *o)
{
    dowringaf_checked checked = passed_with(o->next, o->entries, o->rows);

    checked.refused = o->refused;
    return checked;
}

static void compare_checked(dowringaf_checked got, dowringaf_checked expected)
{
    IS(got.refused, expected.refused);
    IS(got.next, expected.next);
    IS(got.entries, expected.entries);
    IS(got.rows, expected.rows);
}

/* The check alone. It leaves the file as it is. */
static void check_is(const struct header *h, dowringaf_checked expected)
{
    uint8_t *before = copy(h->file, h->bytes);

    compare_checked(dowringaf_check_data_object(h->file, h->bytes, h->position, h->offset_width,
                                                h->length_width, h->end),
                    expected);
    if (h->bytes != 0) {
        IS((uint64_t)memcmp(h->file, before, h->bytes), 0);
    }
    free(before);
}

static void fill(const struct header *h, uint64_t *table, size_t words, dowringaf_object *o)
{
    dowringaf_data_object(h->file, h->bytes, h->position, h->offset_width, h->length_width, h->end,
                          table, words, o);
}

/* The filling alone, of a table of some words. What it does not fill is zero. */
static void filling_is(const struct header *h, size_t words, dowringaf_checked expected)
{
    uint64_t *table = ones(words);
    dowringaf_object *o = object_of_ones();
    size_t i;

    fill(h, table, words, o);
    compare_checked(checked_of(o), expected);
    for (i = expected.rows * DOWRINGAF_ROW_WORDS; i < words; i++) {
        IS(table[i], 0);
    }
    if (expected.refused != 0) {
        compare_refused(o, NULL, 0);
    }
    free(table);
    free(o);
}

/*
 * The check, and the filling of tables around the rows that are taken before the header ends, or
 * before it is refused. With as many the two answer alike; with fewer the filling is refused for
 * its table. Words that make no whole row make no difference.
 */
static void pair_is(const struct header *h, dowringaf_checked expected, uint64_t taken)
{
    enum { ROW = DOWRINGAF_ROW_WORDS };
    static const size_t beyond[5] = {0, ROW - 1, ROW, 2 * ROW - 1, 2 * ROW};
    size_t full = (size_t)taken * ROW;
    size_t i;

    check_is(h, expected);
    filling_is(h, 0, full == 0 ? expected : refused_with(DOWRINGAF_TABLE));
    for (i = 0; i < 5; i++) {
        size_t words = full + beyond[i];

        if (words >= ROW) {
            words -= ROW;
            filling_is(h, words, words < full ? refused_with(DOWRINGAF_TABLE) : expected);
        }
    }
    check_is(h, expected);
}

/* The rows that are taken before a header is refused, where some are enough. */
static uint64_t taken_of(const struct header *h, uint64_t enough)
{
    uint64_t least = 0;

    while (least < enough) {
        uint64_t rows = (least + enough) / 2;
        uint64_t *table = ones((size_t)rows * DOWRINGAF_ROW_WORDS);
        dowringaf_object *o = object_of_ones();

        fill(h, table, (size_t)rows * DOWRINGAF_ROW_WORDS, o);
        if (o->refused == DOWRINGAF_TABLE) {
            least = rows + 1;
        } else {
            enough = rows;
        }
        free(table);
        free(o);
    }
    return least;
}

/* Every field of the full header, and lookups in its table. */
static void test_full(void)
{
    struct writer w;
    struct places p;
    size_t words = MESSAGES * DOWRINGAF_ROW_WORDS + 13;
    uint64_t *table = ones(words);
    uint8_t *file;
    dowringaf_object *o = object_of_ones();
    dowringaf_part part;
    struct header h;

    write_full(&w, &p);
    file = copy(w.bytes, w.count);
    h = header_at(file, w.count, HEADER_FROM, w.count);
    pair_is(&h, passed_with(p.next, MESSAGES, MESSAGES), MESSAGES);
    dowringaf_data_object(file, w.count, HEADER_FROM, OFFSET, LENGTH, w.count, table, words, o);
    IS(o->refused, 0);
    IS(o->next, p.next);
    IS(o->entries, MESSAGES);
    IS(o->rows, MESSAGES);
    compare_spaces(&o->dataspace);
    compare_types(&o->datatype);
    compare_infos(o);
    compare_layouts(&o->layout, p.data);
    compare_rows(table, words, &p);
    look_up(file, w.count, table, words, MESSAGES, "Unit", 0, 1, 5);
    look_up(file, w.count, table, words, MESSAGES, "Units", 0, 0, 0);
    look_up(file, w.count, table, words, MESSAGES, "", 0, 0, 0);
    look_up(file, w.count, table, words, 5, "Unit", 0, 0, 0);
    look_up(file, p.name + 3, table, words, MESSAGES, "Unit", 0, 0, 0);
    look_up(file, w.count, table, words, words / DOWRINGAF_ROW_WORDS + 1, "Unit", DOWRINGAF_TABLE, 0, 0);
    look_up(NULL, 0, NULL, 0, 0, "", 0, 0, 0);
    part = dowringaf_layout_data(file, w.count, o->layout.data.position, o->layout.data.length);
    IS(part.position, p.data);
    IS(part.length, 9);
    IS((uint64_t)memcmp(file + part.position, "the bytes", 9), 0);
    free(file);
    free(table);
    free(o);
}

/* With a table of some words. Where that is not the reason, the check refuses it too. */
static void refuse_below(const uint8_t *bytes, size_t n, uint64_t position, uint64_t offset_width,
                         uint64_t end, size_t words, uint64_t number)
{
    uint8_t *file = copy(bytes, n);
    struct header h = header_at(file, n, position, end);

    h.offset_width = offset_width;
    filling_is(&h, words, refused_with(number));
    if (number != DOWRINGAF_TABLE) {
        pair_is(&h, refused_with(number), taken_of(&h, words / DOWRINGAF_ROW_WORDS));
    }
    free(file);
}

static void refuse(const uint8_t *bytes, size_t n, uint64_t position, uint64_t offset_width,
                   size_t words, uint64_t number)
{
    refuse_below(bytes, n, position, offset_width, 1024, words, number);
}

/* Refusals: every cut of the full header is short, and leaves nothing but one element. */
static void test_refused(void)
{
    struct writer w;
    struct places p;
    size_t n;

    write_full(&w, &p);
    for (n = 0; n < w.count; n++) {
        refuse(w.bytes, n, HEADER_FROM, OFFSET, LENT, DOWRINGAF_SHORT);
    }
    refuse(w.bytes, w.count, HEADER_FROM, 1, LENT, DOWRINGAF_WIDTH);
    refuse(w.bytes, w.count, HEADER_FROM, UINT64_MAX, LENT, DOWRINGAF_WIDTH);
    refuse(w.bytes, w.count, 0, OFFSET, LENT, DOWRINGAF_SIGNATURE);
    refuse(w.bytes, w.count, UINT64_MAX, OFFSET, LENT, DOWRINGAF_SHORT);
    refuse(w.bytes, w.count, HEADER_FROM, OFFSET, TOO_FEW, DOWRINGAF_TABLE);
    refuse(w.bytes, w.count, HEADER_FROM, OFFSET, 0, DOWRINGAF_TABLE);
    refuse(NULL, 0, 0, OFFSET, 0, DOWRINGAF_SHORT);
    w.bytes[p.body[1]] = 0x38;
    make_true(w.bytes, HEADER_FROM, p.next - 4);
    refuse(w.bytes, w.count, HEADER_FROM, OFFSET, LENT, DOWRINGAF_DATATYPE);
}

/*
 * A header of one entry, the body of which begins as given and goes on with zeros: with its true
 * sum, and with a false one, which would be refused later.
 */
static void refuse_entry(int type, int flags, const char *body, size_t n, uint64_t number)
{
    struct writer w;
    size_t i;

    w.count = 0;
    put_text(&w, "OHDR");
    put(&w, 2, 1);
    put(&w, 0, 1);
    put(&w, 64, 1);
    entry(&w, type, 60, flags);
    for (i = 0; i < 60; i++) {
        put(&w, i < n ? (uint8_t)body[i] : 0, 1);
    }
    put_sum(&w, 0);
    refuse(w.bytes, w.count, 0, OFFSET, LENT, number);
    w.bytes[w.count - 1] ^= 1;
    refuse(w.bytes, w.count, 0, OFFSET, LENT, number);
}

/* The numbers of what a message is refused for. */
static void test_messages(void)
{
    refuse_entry(0, 2, "", 0, DOWRINGAF_ENTRY_FLAGS);
    refuse_entry(1, 0, "\3", 1, DOWRINGAF_DATASPACE);
    refuse_entry(2, 0, "\1", 1, DOWRINGAF_LINK_INFO);
    refuse_entry(3, 0, "\30", 1, DOWRINGAF_DATATYPE);
    refuse_entry(5, 0, "\4", 1, DOWRINGAF_FILL);
    refuse_entry(8, 0, "\2", 1, DOWRINGAF_LAYOUT);
    refuse_entry(8, 0, "\3\2", 2, DOWRINGAF_CHUNKED);
    refuse_entry(10, 0, "\1", 1, DOWRINGAF_GROUP_INFO);
    refuse_entry(11, 0, "\3", 1, DOWRINGAF_FILTER_PIPELINE);
    refuse_entry(12, 0, "\2", 1, DOWRINGAF_ATTRIBUTE);
    refuse_entry(21, 0, "\1", 1, DOWRINGAF_ATTRIBUTE_INFO);
    refuse_entry(16, 0, "", 0, DOWRINGAF_CONTINUATION_RANGE);
    refuse_entry(16, 0, "\1\0\0\0\0\0\0\0\10", 9, DOWRINGAF_CONTINUATION_SIGNATURE);
    refuse_entry(16, 0, "\27\0\0\0\0\0\0\0\30\0\0\0OCHK\20\14\0\0\27\0\0\0\0\0\0\0\30", 29,
                 DOWRINGAF_BLOCK_LEVEL);
}

/* Headers that are refused in their first fields, for too many entries, and for too deep a type. */
static void test_headers(void)
{
    static const uint8_t version[11] = {'O', 'H', 'D', 'R', 3};
    static const uint8_t flags[11] = {'O', 'H', 'D', 'R', 2, 16};
    static const uint8_t chunk[14] = {'O', 'H', 'D', 'R', 2, 2, 1, 0, 0, 1};
    enum { HEAD = 8, TYPES = 33, ENTRIES = 4097 };
    size_t n = HEAD + ENTRIES * 4 + 4;
    uint8_t *file = block(n, 1);
    size_t i;

    refuse(version, sizeof version, 0, OFFSET, LENT, DOWRINGAF_VERSION);
    refuse(flags, sizeof flags, 0, OFFSET, LENT, DOWRINGAF_HEADER_FLAGS);
    refuse(chunk, sizeof chunk, 0, OFFSET, LENT, DOWRINGAF_CHUNK_SIZE);
    memset(file, 0, n);
    memcpy(file, "OHDR\2\1", 6);
    file[6] = (uint8_t)(ENTRIES * 4 % 256);
    file[7] = (uint8_t)(ENTRIES * 4 / 256);
    make_true(file, 0, n - 4);
    refuse(file, n, 0, OFFSET, ENTRIES * DOWRINGAF_ROW_WORDS, DOWRINGAF_ENTRIES);
    file[HEAD] = 3;
    for (i = 0; i < TYPES; i++) {
        memcpy(file + HEAD + 4 + i * 8, "\31\0\0\0\1\0\0\0", 8);
    }
    make_true(file, 0, n - 4);
    refuse(file, n, 0, OFFSET, LENT, DOWRINGAF_TYPE_LEVEL);
    free(file);
}

/* A header at the file's beginning. Its entries follow, and what closes it. */
static void begin_header(struct writer *w)
{
    w->count = 0;
    put_text(w, "OHDR");
    put(w, 2, 1);
    put(w, 0, 2);
}

static void end_header(struct writer *w)
{
    w->bytes[6] = (uint8_t)(w->count - 7);
    put_sum(w, 0);
}

static void write_fixed(struct writer *w)
{
    begin_header(w);
    entry(w, 3, 12, 0);
    put(w, 0x10, 1);
    put(w, 8, 3);
    put(w, 4, 4);
    put(w, 5, 2);
    put(w, 27, 2);
    end_header(w);
}

/* A fixed-point type, and no other record. */
static void test_fixed(void)
{
    struct writer w;
    uint8_t *file;
    uint64_t *table = ones(DOWRINGAF_ROW_WORDS);
    dowringaf_object *o = object_of_ones();
    struct header h;

    write_fixed(&w);
    file = copy(w.bytes, w.count);
    h = header_at(file, w.count, 0, w.count);
    h.offset_width = 2;
    h.length_width = 2;
    pair_is(&h, passed_with(w.count, 1, 1), 1);
    fill(&h, table, DOWRINGAF_ROW_WORDS, o);
    IS(o->refused, 0);
    IS(o->next, w.count);
    IS(o->rows, 1);
    IS(o->datatype.class_and_version, 0x10);
    IS(o->datatype.list_size.present, 0);
    IS(o->datatype.list_size.value, 0);
    IS(o->datatype.format.kind, DOWRINGAF_FORMAT_FIXED);
    IS(o->datatype.format.bit_offset, 5);
    IS(o->datatype.format.bit_precision, 27);
    IS(o->datatype.format.exponent_location, 0);
    IS(o->datatype.format.exponent_size, 0);
    IS(o->datatype.format.mantissa_size, 0);
    IS(o->datatype.format.exponent_bias, 0);
    IS(o->dataspace.kind.present, 0);
    IS(o->dataspace.elements.too_many, 0);
    IS(o->dataspace.elements.number, 1);
    IS(o->group_info.maximum_compact_value.present, 0);
    IS(o->layout.address.present, 0);
    IS(o->layout.data.position, 0);
    IS(o->layout.data.length, 0);
    free(file);
    free(table);
    free(o);
}

/* A continuation counts as an entry, and has no row. */
static void test_block(void)
{
    struct writer w;
    uint8_t *file;
    uint64_t *table = ones(2 * DOWRINGAF_ROW_WORDS);
    dowringaf_object *o = object_of_ones();
    struct header h;
    size_t i;

    begin_header(&w);
    entry(&w, 16, 4, 0);
    put(&w, 19, 2);
    put(&w, 16, 2);
    end_header(&w);
    put_text(&w, "OCHK");
    entry(&w, 0, 0, 0);
    entry(&w, 255, 0, 0);
    put_sum(&w, 19);
    file = copy(w.bytes, w.count);
    h = header_at(file, w.count, 0, w.count);
    h.offset_width = 2;
    h.length_width = 2;
    pair_is(&h, passed_with(19, 3, 2), 2);
    fill(&h, table, 2 * DOWRINGAF_ROW_WORDS, o);
    IS(o->refused, 0);
    IS(o->next, 19);
    IS(o->entries, 3);
    IS(o->rows, 2);
    IS(table[DOWRINGAF_ROW_BODY], 27);
    IS(table[DOWRINGAF_ROW_WORDS + DOWRINGAF_ROW_TYPE], 255);
    IS(table[DOWRINGAF_ROW_WORDS + DOWRINGAF_ROW_BODY], 31);
    for (i = DOWRINGAF_ROW_NAME; i < DOWRINGAF_ROW_WORDS; i++) {
        IS(table[DOWRINGAF_ROW_WORDS + i], 0);
    }
    free(file);
    free(table);
    free(o);
}

/* The header at a position, word for word. */
static void object_is(const uint8_t *bytes, size_t n, uint64_t position, int width, uint64_t end,
                      const dowringaf_object *expected)
{
    uint8_t *file = copy(bytes, n);
    uint64_t *table = ones(LENT);
    dowringaf_object *o = object_of_ones();
    struct header h = header_at(file, n, position, end);
    size_t i;

    h.offset_width = (uint64_t)width;
    pair_is(&h, checked_of(expected), expected->rows);
    fill(&h, table, LENT, o);
    for (i = 0; i < sizeof *o / sizeof(uint64_t); i++) {
        IS(((const uint64_t *)o)[i], ((const uint64_t *)expected)[i]);
    }
    free(file);
    free(table);
    free(o);
}

/* What is handed over of a header without records. */
static dowringaf_object no_records(void)
{
    dowringaf_object o;

    memset(&o, 0, sizeof o);
    o.dataspace.elements.number = 1;
    return o;
}

/* What is read of a header with some messages, before their records. */
static dowringaf_object read_messages(const struct writer *w, uint64_t messages)
{
    dowringaf_object o = no_records();

    o.next = w->count;
    o.entries = messages;
    o.rows = messages;
    return o;
}

static void put_contiguous(struct writer *w, uint64_t address, uint64_t size, int width)
{
    entry(w, 8, 2 + width + LENGTH, 0);
    put(w, 3, 1);
    put(w, 1, 1);
    put(w, address, width);
    put(w, size, LENGTH);
}

/* Three of a link info, three of an attribute info, and that of a layout. */
enum { ADDRESSES = 7 };

static void write_addresses(struct writer *w, const uint64_t a[ADDRESSES], int width)
{
    begin_header(w);
    entry(w, 2, 10 + 3 * width, 0);
    put(w, 0, 1);
    put(w, 3, 1);
    put(w, 11, 8);
    put_numbers(w, a, 3, width);
    entry(w, 21, 4 + 3 * width, 0);
    put(w, 0, 1);
    put(w, 3, 1);
    put(w, 13, 2);
    put_numbers(w, a + 3, 3, width);
    put_contiguous(w, a[6], 1, width);
    end_header(w);
}

/* The end is such that the data are not in the file, or their address is undefined. */
static void addresses_are(const uint64_t a[ADDRESSES], int width, uint64_t end)
{
    struct writer w;
    dowringaf_object o;

    write_addresses(&w, a, width);
    o = read_messages(&w, 3);
    o.link_info.flags = 3;
    o.link_info.maximum_creation_index.present = 1;
    o.link_info.maximum_creation_index.value = 11;
    o.link_info.fractal_heap_address = address_of(a[0], width);
    o.link_info.address_btree_index = address_of(a[1], width);
    o.link_info.address_btree_order = present_address_of(a[2], width);
    o.attribute_info.flags = 3;
    o.attribute_info.maximum_creation_index = 13;
    o.attribute_info.fractal_heap_address = address_of(a[3], width);
    o.attribute_info.attribute_name_btree = address_of(a[4], width);
    o.attribute_info.attribute_creation_order_btree = address_of(a[5], width);
    o.layout.address = present_address_of(a[6], width);
    object_is(w.bytes, w.count, 0, width, end, &o);
}

static void all_addresses_are(uint64_t number, int width, uint64_t end)
{
    uint64_t a[ADDRESSES];
    int i;

    for (i = 0; i < ADDRESSES; i++) {
        a[i] = number;
    }
    addresses_are(a, width, end);
}

/* One address is undefined and the others are numbers, and the other way round. */
static void one_address_is(int which, int width)
{
    uint64_t a[ADDRESSES];
    uint64_t others[ADDRESSES];
    int i;

    for (i = 0; i < ADDRESSES; i++) {
        a[i] = i == which ? most(width) : (uint64_t)(i + 17);
        others[i] = i == which ? (uint64_t)(i + 17) : most(width);
    }
    addresses_are(a, width, 0);
    addresses_are(others, width, 0);
}

/* All ones in the width are undefined. Those but one bit, and those of a smaller width, are not. */
static void test_addresses(void)
{
    int width;
    int i;

    for (width = 2; width <= 8; width++) {
        all_addresses_are(most(width), width, 0);
        all_addresses_are(most(width), width, UINT64_MAX);
        for (i = 0; i < 8 * width; i++) {
            all_addresses_are(most(width) ^ (uint64_t)1 << i, width, 0);
        }
        for (i = 1; i < width; i++) {
            all_addresses_are(most(i), width, 0);
        }
        for (i = 0; i < ADDRESSES; i++) {
            one_address_is(i, width);
        }
    }
}

/* What is not stored is absent or 0, and not undefined; so is the address of compact data. */
static void test_absent_addresses(void)
{
    static const uint64_t undefined[2] = {UINT64_MAX, UINT64_MAX};
    struct writer w;
    dowringaf_object o;
    int width;

    for (width = 2; width <= 8; width++) {
        begin_header(&w);
        entry(&w, 2, 2 + 2 * width, 0);
        put(&w, 0, 2);
        put_numbers(&w, undefined, 2, width);
        entry(&w, 21, 2 + 2 * width, 0);
        put(&w, 0, 2);
        put_numbers(&w, undefined, 2, width);
        put_contiguous(&w, most(width), 1, width);
        entry(&w, 8, 12, 0);
        put(&w, 3, 2);
        put(&w, 8, 2);
        put_numbers(&w, undefined, 1, 8);
        end_header(&w);
        o = read_messages(&w, 4);
        o.link_info.fractal_heap_address.undefined = 1;
        o.link_info.address_btree_index.undefined = 1;
        o.attribute_info.fractal_heap_address.undefined = 1;
        o.attribute_info.attribute_name_btree.undefined = 1;
        object_is(w.bytes, w.count, 0, width, UINT64_MAX, &o);
    }
}

/* A header of one layout, in a file of some bytes more: its address, and its part. */
static void data_are(uint64_t address, uint64_t size, int width, size_t n, uint64_t end,
                     uint64_t position, uint64_t length)
{
    uint8_t *file = block(n, 1);
    struct writer w;
    dowringaf_object o;

    begin_header(&w);
    put_contiguous(&w, address, size, width);
    end_header(&w);
    memset(file, 0, n);
    memcpy(file, w.bytes, w.count);
    o = read_messages(&w, 1);
    o.layout.address = present_address_of(address, width);
    o.layout.data.position = position;
    o.layout.data.length = length;
    object_is(file, n, 0, width, end, &o);
    free(file);
}

static void refuse_data(uint64_t address, uint64_t size, int width, uint64_t end, uint64_t number)
{
    struct writer w;

    begin_header(&w);
    put_contiguous(&w, address, size, width);
    end_header(&w);
    refuse_below(w.bytes, w.count, 0, (uint64_t)width, end, LENT, number);
}

/* The bytes of a file that has the byte at 65535, which a width of 2 has no address for. */
enum { FAR = 65535, FAR_BYTES = FAR + 32 };

/* The address stands beside the part, also where that is empty; an undefined one has no data. */
static void test_data(void)
{
    enum { ROOM = 64, SIZE_LIMIT = 268435456 };
    int width;

    for (width = 2; width <= 8; width++) {
        data_are(1, 3, width, ROOM, 2, 1, 3);
        data_are(1, 0, width, ROOM, 2, 0, 0);
        data_are(2, 3, width, ROOM, 2, 0, 0);
        data_are(0, 3, width, ROOM, UINT64_MAX, 0, 0);
        data_are(most(width) - 1, 3, width, ROOM, most(width) - 1, 0, 0);
        refuse_data(most(width) - 1, 3, width, most(width), DOWRINGAF_SHORT);
        data_are(most(width), 3, width, ROOM, 2, 0, 0);
        data_are(most(width), 0, width, ROOM, UINT64_MAX, 0, 0);
        data_are(most(width), SIZE_LIMIT - 1, width, ROOM, UINT64_MAX, 0, 0);
        refuse_data(most(width), SIZE_LIMIT, width, UINT64_MAX, DOWRINGAF_LAYOUT);
        refuse_data(most(width), SIZE_LIMIT, width, 2, DOWRINGAF_LAYOUT);
    }
    data_are(FAR - 1, 2, 2, FAR_BYTES, FAR_BYTES, FAR - 1, 2);
    data_are(FAR, 2, 2, FAR_BYTES, FAR_BYTES, 0, 0);
    data_are(FAR, 2, 3, FAR_BYTES, FAR_BYTES, FAR, 2);
}

/* An undefined offset is refused before the length, which is or is not there, whatever the end. */
static void test_continuations(void)
{
    struct writer w;
    int width;

    for (width = 2; width <= 8; width++) {
        uint64_t offset = most(width) - 1;
        size_t length_at;

        begin_header(&w);
        length_at = entry(&w, 16, width + LENGTH, 0) + (size_t)width;
        put(&w, offset, width);
        put(&w, 8, LENGTH);
        end_header(&w);
        refuse_below(w.bytes, length_at, 0, (uint64_t)width, most(width), LENT, DOWRINGAF_SHORT);
        refuse_below(w.bytes, w.count, 0, (uint64_t)width, offset + 1, LENT,
                     DOWRINGAF_CONTINUATION_RANGE);
        w.bytes[length_at - (size_t)width] = 255;
        refuse_below(w.bytes, length_at, 0, (uint64_t)width, UINT64_MAX, LENT,
                     DOWRINGAF_CONTINUATION_RANGE);
        make_true(w.bytes, 0, w.count - 4);
        refuse_below(w.bytes, w.count, 0, (uint64_t)width, UINT64_MAX, LENT,
                     DOWRINGAF_CONTINUATION_RANGE);
    }
}

/* A header that leads to a block without entries, which stands far behind it. */
static uint8_t *far_block(uint64_t offset, int width, dowringaf_object *expected)
{
    uint8_t *file = block(FAR_BYTES, 1);
    struct writer w;

    begin_header(&w);
    entry(&w, 16, width + LENGTH, 0);
    put(&w, offset, width);
    put(&w, 8, LENGTH);
    end_header(&w);
    *expected = read_messages(&w, 0);
    expected->entries = 1;
    memset(file, 0, FAR_BYTES);
    memcpy(file, w.bytes, w.count);
    memcpy(file + offset, "OCHK", 4);
    make_true(file, offset, offset + 4);
    return file;
}

/* In a width of 2 a block at 65535 is not led to, although it is there. */
static void test_far_blocks(void)
{
    static const struct {
        uint64_t offset;
        int width;
    } read[2] = {{FAR - 1, 2}, {FAR, 3}};
    dowringaf_object o;
    uint8_t *file;
    int i;

    for (i = 0; i < 2; i++) {
        file = far_block(read[i].offset, read[i].width, &o);
        object_is(file, FAR_BYTES, 0, read[i].width, FAR_BYTES, &o);
        free(file);
    }
    file = far_block(FAR, 2, &o);
    refuse_below(file, FAR_BYTES, 0, 2, FAR_BYTES, LENT, DOWRINGAF_CONTINUATION_RANGE);
    free(file);
}

static void part_is(size_t position, size_t length, uint64_t got_position, uint64_t got_length)
{
    uint8_t *file = copy((const uint8_t *)"abcdefghij", 10);
    dowringaf_part part = dowringaf_layout_data(file, 10, position, length);

    IS(part.position, got_position);
    IS(part.length, got_length);
    free(file);
}

static void test_parts(void)
{
    part_is(0, 10, 0, 10);
    part_is(3, 7, 3, 7);
    part_is(3, 8, 0, 0);
    part_is(10, 0, 10, 0);
    part_is(11, 0, 0, 0);
    part_is(SIZE_MAX, 2, 0, 0);
    part_is(2, SIZE_MAX, 0, 0);
}

static void listing_is(const uint8_t *input, size_t n, const char *expected)
{
    uint8_t *given = copy(input, n);
    uint8_t *out = block(DOWRINGAF_LISTING, 1);
    size_t length;

    memset(out, 1, DOWRINGAF_LISTING);
    length = dowringaf_list(given, n, out);
    IS(length, strlen(expected));
    IS((uint64_t)(length == strlen(expected) && memcmp(out, expected, length) == 0), 1);
    IS(out[length], 1);
    free(given);
    free(out);
}

/* A root's header of an unknown message and a group info. */
static void write_small(struct writer *w)
{
    w->count = 0;
    put_superblock(w, 8, 8, UINT64_MAX, 71, SUPERBLOCK);
    put_text(w, "OHDR");
    put(w, 2, 1);
    put(w, 0, 1);
    put(w, 12, 1);
    entry(w, 0, 2, 0);
    put(w, 0xBBAA, 2);
    entry(w, 10, 2, 0);
    put(w, 0, 2);
    put_sum(w, SUPERBLOCK);
}

static const char small_listing[] = "0,0,0,2,59,-,-,-,-\n1,10,0,2,65,-,-,-,-\nend,71,2\n";

/* Files that are listed, and files that are refused. */
static void test_listing(void)
{
    struct writer w;
    struct places p;

    write_full(&w, &p);
    listing_is(w.bytes, w.count,
               "0,1,1,36,63,-,-,-,-\n1,3,4,28,103,-,-,-,-\n2,2,0,34,135,-,-,-,-\n"
               "3,10,0,10,173,-,-,-,-\n4,21,0,28,187,-,-,-,-\n5,12,0,31,219,228,4,245,5\n"
               "6,8,0,14,254,-,-,272,9\nend,272,7\n");
    write_small(&w);
    listing_is(w.bytes, w.count, small_listing);
    listing_is(w.bytes, w.count - 1, "refused,3\n");
    listing_is(w.bytes + SUPERBLOCK, w.count - SUPERBLOCK, "refused,25\n");
    w.bytes[SUPERBLOCK] = 'o';
    listing_is(w.bytes, w.count, "refused,4\n");
}

/* The largest input that is listed; one byte more is refused before anything is read. */
static void test_large_listing(void)
{
    enum { MOST = 65536 };
    struct writer w;
    uint8_t *input = block(MOST + 1, 1);

    write_small(&w);
    memset(input, 0, MOST + 1);
    memcpy(input, w.bytes, w.count);
    listing_is(input, MOST, small_listing);
    listing_is(input, MOST + 1, "refused,2\n");
    input[0] = 0;
    listing_is(input, MOST, "refused,25\n");
    listing_is(input, MOST + 1, "refused,2\n");
    free(input);
}

/* The file of the small listing in as many bytes: of those behind it none is touched. */
static void size_is(const uint8_t *file, size_t bytes, uint64_t next, uint64_t refused)
{
    struct header h = header_at(file, bytes, SUPERBLOCK, 71);
    dowringaf_checked expected = refused == 0 ? passed_with(next, 2, 2) : refused_with(refused);
    uint64_t *table = ones(LENT);
    dowringaf_object *o = object_of_ones();

    IS(dowringaf_super_block(file, bytes).refused, refused);
    compare_checked(dowringaf_check_data_object(file, bytes, h.position, h.offset_width,
                                                h.length_width, h.end), expected);
    compare_checked(dowringaf_check_root_object(file, bytes), expected);
    filling_is(&h, LENT, expected);
    dowringaf_root_object(file, bytes, table, LENT, o);
    compare_checked(checked_of(o), expected);
    h.offset_width = 9;
    filling_is(&h, LENT, refused_with(DOWRINGAF_WIDTH));
    free(table);
    free(o);
}

/* The largest file, and one byte more, in memory that is reserved and not filled; neither is listed. */
static void test_largest_file(void)
{
    const size_t most = (size_t)1 << 31;
    size_t n;
    struct writer w;
    uint8_t *out = block(DOWRINGAF_LISTING, 1);
    uint8_t *file = mmap(NULL, most + 1, PROT_READ | PROT_WRITE,
                         MAP_PRIVATE | MAP_ANONYMOUS | MAP_NORESERVE, -1, 0);

    if (file == MAP_FAILED) {
        perror("mmap");
        exit(2);
    }
    write_small(&w);
    memcpy(file, w.bytes, w.count);
    size_is(file, most, 71, 0);
    size_is(file, most + 1, 0, DOWRINGAF_FILE_SIZE);
    for (n = most; n <= most + 1; n++) {
        IS(dowringaf_list(file, n, out), 10);
        IS((uint64_t)memcmp(out, "refused,2\n", 10), 0);
    }
    munmap(file, most + 1);
    free(out);
}

static void superblock_is(const struct writer *w, const dowringaf_superblock *expected)
{
    uint8_t *file = copy(w->bytes, w->count);
    dowringaf_superblock block = dowringaf_super_block(file, w->count);

    IS(block.refused, expected->refused);
    IS(block.size_of_offsets, expected->size_of_offsets);
    IS(block.size_of_lengths, expected->size_of_lengths);
    IS(block.base_address, expected->base_address);
    IS(block.superblock_extension_address.undefined,
       expected->superblock_extension_address.undefined);
    IS(block.superblock_extension_address.number, expected->superblock_extension_address.number);
    IS(block.end_of_file_address, expected->end_of_file_address);
    IS(block.root_group_object_header_address, expected->root_group_object_header_address);
    free(file);
}

/* Refused with a number as a root and as a listing, and nothing else is handed over. */
static void refuse_root(const uint8_t *bytes, size_t n, uint64_t number)
{
    uint8_t *file = copy(bytes, n);
    uint64_t *table = ones(LENT);
    dowringaf_object *o = object_of_ones();
    char listing[32];

    compare_checked(dowringaf_check_root_object(file, n), refused_with(number));
    dowringaf_root_object(file, n, table, LENT, o);
    IS(o->refused, number);
    compare_refused(o, table, LENT);
    sprintf(listing, "refused,%llu\n", (unsigned long long)number);
    listing_is(file, n, listing);
    free(file);
    free(table);
    free(o);
}

/* The same as a superblock, the other words of which are zero. */
static void refuse_superblock(const uint8_t *bytes, size_t n, uint64_t number)
{
    static const dowringaf_superblock zeros = {0, 0, 0, 0, {0, 0}, 0, 0};
    uint8_t *file = copy(bytes, n);
    dowringaf_superblock block = dowringaf_super_block(file, n);

    IS(block.refused, number);
    block.refused = 0;
    IS((uint64_t)memcmp(&block, &zeros, sizeof block), 0);
    refuse_root(file, n, number);
    free(file);
}

/* A superblock in which every field has a value of its own. */
static void write_own(struct writer *w)
{
    w->count = 0;
    put_superblock(w, 7, 4, 0x21222324252627u, 0x31323334353637u, 0x41424344454647u);
}

/* Three addresses of a superblock that is read. */
static void addresses_are_read(int width, uint64_t extension, uint64_t end, uint64_t root)
{
    dowringaf_superblock expected = {0, 0, 0, 0, {0, 0}, 0, 0};
    struct writer w;

    w.count = 0;
    put_superblock(&w, width, 10 - width, extension, end, root);
    expected.size_of_offsets = (uint64_t)width;
    expected.size_of_lengths = (uint64_t)(10 - width);
    expected.superblock_extension_address = address_of(extension, width);
    expected.end_of_file_address = end;
    expected.root_group_object_header_address = root;
    superblock_is(&w, &expected);
}

/* Every word, in both versions and with each width, of files that end with the superblock. */
static void test_superblock(void)
{
    static const dowringaf_superblock own = {
        0, 7, 4, 0, {0, 0x21222324252627u}, 0x31323334353637u, 0x41424344454647u};
    struct writer w;
    int width;
    int bit;

    write_own(&w);
    superblock_is(&w, &own);
    w.bytes[VERSION_AT] = 2;
    make_true(w.bytes, 0, w.count - 4);
    superblock_is(&w, &own);
    for (width = 2; width <= 8; width++) {
        addresses_are_read(width, most(width), most(width) - 1, most(width) - 1);
        addresses_are_read(width, 0, 0, 0);
        for (bit = 0; bit < 8 * width; bit++) {
            uint64_t number = most(width) ^ (uint64_t)1 << bit;

            addresses_are_read(width, number, number, number);
        }
    }
}

/* A field that is wrong counts before a false sum, and with a true one. */
static void refuse_field(struct writer *w, uint64_t number)
{
    refuse_superblock(w->bytes, w->count, number);
    make_true(w->bytes, 0, w->count - 4);
    refuse_superblock(w->bytes, w->count, number);
}

/* Each value that a field must not have, and every cut. */
static void test_refused_superblocks(void)
{
    static const uint8_t versions[4] = {0, 1, 4, 255};
    static const uint8_t widths[4] = {0, 1, 9, 255};
    struct writer w;
    size_t i;

    write_own(&w);
    for (i = 0; i < w.count; i++) {
        refuse_superblock(w.bytes, i, DOWRINGAF_SHORT);
    }
    for (i = 0; i < SIGNATURE_BYTES; i++) {
        write_own(&w);
        w.bytes[i] ^= 0x20;
        refuse_field(&w, DOWRINGAF_SUPERBLOCK_SIGNATURE);
    }
    for (i = 0; i < 4; i++) {
        write_own(&w);
        w.bytes[VERSION_AT] = versions[i];
        refuse_field(&w, DOWRINGAF_SUPERBLOCK_VERSION);
        write_own(&w);
        w.bytes[OFFSET_AT] = widths[i];
        refuse_field(&w, DOWRINGAF_WIDTH);
        write_own(&w);
        w.bytes[LENGTH_AT] = widths[i];
        refuse_field(&w, DOWRINGAF_WIDTH);
    }
    for (i = BASE_AT; i < BASE_AT + 7; i++) {
        write_own(&w);
        w.bytes[i] = 0x80;
        refuse_field(&w, DOWRINGAF_BASE_ADDRESS);
    }
}

/* An end-of-file or a root address that is undefined is as one that is not there. */
static void test_undefined_superblocks(void)
{
    struct writer w;
    int width;
    int which;

    for (width = 2; width <= 8; width++) {
        for (which = 1; which < 4; which++) {
            uint64_t end = which & 1 ? most(width) : 5;
            uint64_t root = which & 2 ? most(width) : 7;

            w.count = 0;
            put_superblock(&w, width, LENGTH, most(width), end, root);
            refuse_superblock(w.bytes, w.count, DOWRINGAF_SHORT);
            w.bytes[w.count - 1] ^= 1;
            refuse_superblock(w.bytes, w.count, DOWRINGAF_SHORT);
            memset(w.bytes + BASE_AT, 255, (size_t)width);
            refuse_field(&w, DOWRINGAF_BASE_ADDRESS);
        }
    }
}

/*
 * Fields are tested as they are read: from the last one on, each is made wrong beside those after
 * it, and counts as soon as its last byte is there.
 */
static void test_superblock_order(void)
{
    static const struct {
        size_t at;
        size_t end;
        uint8_t wrong;
        uint64_t number;
    } fields[6] = {
        {BASE_AT + 28, BASE_AT + 32, 0, DOWRINGAF_CHECKSUM},
        {BASE_AT, BASE_AT + 7, 1, DOWRINGAF_BASE_ADDRESS},
        {LENGTH_AT, LENGTH_AT + 1, 9, DOWRINGAF_WIDTH},
        {OFFSET_AT, OFFSET_AT + 1, 1, DOWRINGAF_WIDTH},
        {VERSION_AT, VERSION_AT + 1, 4, DOWRINGAF_SUPERBLOCK_VERSION},
        {0, SIGNATURE_BYTES, 0, DOWRINGAF_SUPERBLOCK_SIGNATURE},
    };
    struct writer w;
    size_t i;

    write_own(&w);
    for (i = 0; i < 6; i++) {
        w.bytes[fields[i].at] = fields[i].wrong;
        refuse_superblock(w.bytes, w.count, fields[i].number);
        refuse_superblock(w.bytes, fields[i].end, fields[i].number);
        refuse_superblock(w.bytes, fields[i].end - 1, DOWRINGAF_SHORT);
    }
}

/* The root's header, and the one at its place by hand, word for word; and the check of the root. */
static void root_is_by_hand(const struct writer *w, size_t n, uint64_t end, size_t words,
                            uint64_t rows)
{
    uint8_t *file = copy(w->bytes, n);
    uint64_t *root_table = ones(words);
    uint64_t *table = ones(words);
    dowringaf_object *root = object_of_ones();
    dowringaf_object *o = object_of_ones();
    dowringaf_checked checked = dowringaf_check_root_object(file, n);
    struct header h = header_at(file, n, HEADER_FROM, end);
    size_t i;

    check_is(&h, checked);
    dowringaf_root_object(file, n, root_table, words, root);
    if (words / DOWRINGAF_ROW_WORDS < checked.rows) {
        checked = refused_with(DOWRINGAF_TABLE);
    }
    compare_checked(checked_of(root), checked);
    dowringaf_data_object(file, n, HEADER_FROM, OFFSET, LENGTH, end, table, words, o);
    IS(root->rows, rows);
    for (i = 0; i < sizeof *o / sizeof(uint64_t); i++) {
        IS(((uint64_t *)root)[i], ((uint64_t *)o)[i]);
    }
    for (i = 0; i < words; i++) {
        IS(root_table[i], table[i]);
    }
    free(file);
    free(root_table);
    free(table);
    free(root);
    free(o);
}

/* The full header as a root: with ends around its data, cut, and with too small a table. */
static void test_root(void)
{
    struct writer w;
    struct places p;
    uint64_t ends[4];
    dowringaf_object *o = object_of_ones();
    size_t i;

    write_full(&w, &p);
    ends[0] = 0;
    ends[1] = p.data;
    ends[2] = p.data + 1;
    ends[3] = UINT64_MAX - 1;
    for (i = 0; i < 4; i++) {
        write_front(&w, UINT64_MAX, ends[i]);
        root_is_by_hand(&w, w.count, ends[i], LENT, MESSAGES);
    }
    for (i = SUPERBLOCK; i < w.count; i++) {
        root_is_by_hand(&w, i, ends[3], LENT, 0);
    }
    root_is_by_hand(&w, w.count, ends[3], TOO_FEW, 0);
    root_is_by_hand(&w, w.count, ends[3], 0, 0);
    write_undefined(&w, &p);
    root_is_by_hand(&w, w.count, w.count, LENT, MESSAGES);
    compare_checked(dowringaf_check_root_object(NULL, 0), refused_with(DOWRINGAF_SHORT));
    dowringaf_root_object(NULL, 0, NULL, 0, o);
    IS(o->refused, DOWRINGAF_SHORT);
    compare_refused(o, NULL, 0);
    free(o);
}

/* A file whose root's header has no entries and stands far behind the superblock. */
static uint8_t *far_root(uint64_t root, int width)
{
    uint8_t *file = block(FAR_BYTES, 1);
    struct writer w;

    w.count = 0;
    put_superblock(&w, width, LENGTH, most(width), FAR - 1, root);
    memset(file, 0, FAR_BYTES);
    memcpy(file, w.bytes, w.count);
    memcpy(file + root, "OHDR\2\0\0", 7);
    make_true(file, root, root + 7);
    return file;
}

static void far_root_is(uint64_t root, int width, uint64_t refused)
{
    uint8_t *file = far_root(root, width);
    uint64_t *table = ones(LENT);
    dowringaf_object *o = object_of_ones();

    dowringaf_root_object(file, FAR_BYTES, table, LENT, o);
    IS(o->refused, refused);
    IS(o->next, refused == 0 ? root + 11 : 0);
    compare_checked(dowringaf_check_root_object(file, FAR_BYTES),
                    refused == 0 ? passed_with(root + 11, 0, 0) : refused_with(refused));
    free(file);
    free(table);
    free(o);
}

/* In a width of 2 a root at 65535 is not read, although it is there. By hand this is a number. */
static void test_far_roots(void)
{
    uint8_t *file = far_root(FAR, 2);
    dowringaf_object expected = no_records();

    far_root_is(FAR - 1, 2, 0);
    far_root_is(FAR, 2, DOWRINGAF_SHORT);
    far_root_is(FAR, 3, 0);
    expected.next = FAR + 11;
    object_is(file, FAR_BYTES, FAR, 2, FAR, &expected);
    free(file);
}

/* The classes of types, those of numbers first, and the bits of a class that decide on numbers. */
enum { FIXED = 0, FLOAT = 1, TEXT = 3, COMPOUND = 6, REFERENCE = 7 };
enum { HIGHEST_FIRST = 1, WITH_SIGN = 8, NORMALISED = 0x20 };

/*
 * An attribute that is a number, or would be but for one field. In version 1 its type has version 1
 * too, and unless another one is given its space; in version 3 they have 3 and 2. Of the sizes all
 * but the last are 1. With a list size the type is a variable-length one of the class.
 */
struct numeric {
    uint64_t version;
    uint64_t class;
    uint64_t class_bits;
    uint64_t size;
    uint64_t bit_offset;
    uint64_t precision;
    uint64_t list_size;
    int sizes;
    uint64_t last;
    uint64_t maximum;
    uint64_t stored;
};

/* A whole number of some bytes, without sizes. */
static struct numeric whole(uint64_t size, uint64_t class_bits, uint64_t stored)
{
    struct numeric n = {3, FIXED, 0, 0, 0, 0, 0, 0, 1, 0, 0};

    n.class_bits = class_bits;
    n.size = size;
    n.precision = 8 * size;
    n.stored = stored;
    return n;
}

/* A single or a double. */
static struct numeric real(uint64_t size, uint64_t class_bits, uint64_t stored)
{
    struct numeric n = whole(size, class_bits, stored);

    n.class = FLOAT;
    n.class_bits |= NORMALISED | (8 * size - 1) << 8;
    return n;
}

/* The size of what was written from a place on; version 1 pads that to a multiple of 8. */
static void end_field(struct writer *w, const struct numeric *n, size_t size_at, size_t from)
{
    w->bytes[size_at] = (uint8_t)(w->count - from);
    while (n->version == 1 && (w->count - from) % 8 != 0) {
        put(w, 0xEE, 1);
    }
}

/* The further properties of a float are those of IEEE, by its precision. */
static void put_type(struct writer *w, const struct numeric *n)
{
    int is_single = n->precision == 32;

    if (n->list_size != 0) {
        put(w, n->version << 4 | 9, 1);
        put(w, 0, 3);
        put(w, n->list_size, 4);
    }
    put(w, n->version << 4 | n->class, 1);
    put(w, n->class_bits, 3);
    put(w, n->size, 4);
    if (n->class == FIXED || n->class == FLOAT) {
        put(w, n->bit_offset, 2);
        put(w, n->precision, 2);
    }
    if (n->class == FLOAT) {
        put(w, is_single ? 23 : 52, 1);
        put(w, is_single ? 8 : 11, 1);
        put(w, 0, 1);
        put(w, is_single ? 23 : 52, 1);
        put(w, is_single ? 127 : 1023, 4);
    }
}

static struct space space_of(const struct numeric *n)
{
    struct space s = {2, 0, 0, 0, {1, 1, 1, 1}, {1, 1, 1, 1}};

    s.version = n->version == 1 ? 1 : 2;
    s.count = (uint64_t)n->sizes;
    s.flags = n->maximum != 0 ? 1 : 0;
    s.kind = n->version != 1 && n->sizes != 0 ? 1 : 0;
    if (n->sizes != 0) {
        s.sizes[n->sizes - 1] = n->last;
        s.maxima[n->sizes - 1] = n->maximum;
    }
    return s;
}

/* The bytes of a number, the lowest first or, by its type, the highest. */
static void put_element(struct writer *w, const struct numeric *n)
{
    uint64_t i;

    for (i = 0; i < n->size; i++) {
        uint64_t byte = n->class_bits & HIGHEST_FIRST ? n->size - 1 - i : i;

        put(w, byte < 8 ? n->stored >> 8 * byte : 0, 1);
    }
}

/* Where the pieces of an attribute begin. */
struct pieces {
    size_t body;
    size_t name;
    size_t type;
    size_t space;
    size_t value;
};

/* An attribute up to its value. The sizes of name, type and space are below 256. */
static struct pieces put_before_value(struct writer *w, const char *name, const struct numeric *n,
                                      const struct space *s)
{
    struct pieces p;

    p.body = entry(w, 12, 0, 0);
    put(w, n->version, 1);
    put(w, 0, n->version == 1 ? 7 : 8);
    p.name = w->count;
    put_text(w, name);
    put(w, 0, 1);
    end_field(w, n, p.body + 2, p.name);
    p.type = w->count;
    put_type(w, n);
    end_field(w, n, p.body + 4, p.type);
    p.space = w->count;
    put_space(w, s);
    end_field(w, n, p.body + 6, p.space);
    p.value = w->count;
    return p;
}

/* The entry's size, below 256, by what is written of its body. */
static void end_entry(struct writer *w, size_t body)
{
    w->bytes[body - 3] = (uint8_t)(w->count - body);
}

/* As many elements as the last size says, whatever the space. */
static struct pieces put_numeric(struct writer *w, const char *name, const struct numeric *n,
                                 const struct space *s)
{
    struct pieces p = put_before_value(w, name, n, s);
    uint64_t i;

    for (i = 0; i < n->last; i++) {
        put_element(w, n);
    }
    end_entry(w, p.body);
    return p;
}

/* The row of an attribute without a value. */
static void expect_attribute(uint64_t *row, const struct writer *w, const struct pieces *p,
                             const char *name)
{
    memset(row, 0, DOWRINGAF_ROW_WORDS * sizeof *row);
    row[DOWRINGAF_ROW_TYPE] = 12;
    row[DOWRINGAF_ROW_SIZE] = w->bytes[p->body - 3];
    row[DOWRINGAF_ROW_BODY] = p->body;
    row[DOWRINGAF_ROW_NAME] = 1;
    row[DOWRINGAF_ROW_NAME_POSITION] = p->name;
    row[DOWRINGAF_ROW_NAME_LENGTH] = strlen(name);
}

/* The rows of a header in some bytes of a file, word for word. */
static void rows_are(const struct writer *w, size_t bytes, size_t position, size_t next,
                     const uint64_t *expected, size_t rows)
{
    uint8_t *file = copy(w->bytes, bytes);
    uint64_t *table = ones(rows * DOWRINGAF_ROW_WORDS);
    dowringaf_object *o = object_of_ones();
    struct header h = header_at(file, bytes, position, bytes);
    size_t i;

    pair_is(&h, passed_with(next, rows, rows), rows);
    fill(&h, table, rows * DOWRINGAF_ROW_WORDS, o);
    for (i = 0; i < rows * DOWRINGAF_ROW_WORDS; i++) {
        IS(table[i], expected[i]);
    }
    free(file);
    free(table);
    free(o);
}

/* The same of a header at the file's beginning without records, and every word of its object. */
static void attributes_are(const struct writer *w, const uint64_t *expected, size_t rows)
{
    dowringaf_object o = read_messages(w, rows);

    rows_are(w, w->count, 0, w->count, expected, rows);
    object_is(w->bytes, w->count, 0, OFFSET, w->count, &o);
}

/* Such an attribute and, behind it, a message without a body. */
static void number_is(const struct numeric *n, const struct space *s, uint64_t number,
                      uint64_t bits)
{
    uint64_t expected[2 * DOWRINGAF_ROW_WORDS] = {0};
    struct writer w;
    struct pieces p;

    begin_header(&w);
    p = put_numeric(&w, "Rate", n, s);
    expect_attribute(expected, &w, &p, "Rate");
    expected[DOWRINGAF_ROW_NUMBER] = number;
    expected[DOWRINGAF_ROW_NUMBER_BITS] = bits;
    expected[DOWRINGAF_ROW_WORDS + DOWRINGAF_ROW_BODY] = entry(&w, 0, 0, 0);
    end_header(&w);
    attributes_are(&w, expected, 2);
}

/* In both byte orders, and in both versions. */
static void number_is_read(struct numeric n, uint64_t number, uint64_t bits)
{
    int i;

    for (i = 0; i < 4; i++) {
        struct space s;

        n.version = i < 2 ? 3 : 1;
        n.class_bits ^= HIGHEST_FIRST;
        s = space_of(&n);
        number_is(&n, &s, number, bits);
    }
}

/* Whole numbers without sign, and the numbers that they are with it. */
static void test_whole_numbers(void)
{
    static const struct {
        uint64_t size;
        uint64_t stored;
        int64_t with_sign;
    } numbers[] = {
        {1, 0, 0},
        {1, 0x7F, 127},
        {1, 0x80, -128},
        {1, 0xFF, -1},
        {2, 0x0102, 258},
        {2, 0x7FFF, 32767},
        {2, 0x8000, -32768},
        {2, 0xFFFB, -5},
        {2, 0x00FF, 255},
        {4, 0xBB80, 48000},
        {4, 0x01020304, 16909060},
        {4, 0x7FFFFFFF, 2147483647},
        {4, 0x80000000u, -2147483647 - 1},
        {4, 0xFFFEFDFCu, -66052},
        {8, 0x0102030405060708u, 72623859790382856},
        {8, 0x7FFFFFFFFFFFFFFFu, INT64_MAX},
        {8, 0x8000000000000000u, INT64_MIN},
        {8, 0xFFFFFFFFFFFFFFFFu, -1},
        {8, 0x00000000FFFFFFFFu, 4294967295},
    };
    size_t i;

    for (i = 0; i < sizeof numbers / sizeof numbers[0]; i++) {
        uint64_t bits = (uint64_t)numbers[i].with_sign;

        number_is_read(whole(numbers[i].size, 0, numbers[i].stored), DOWRINGAF_NUMBER_UNSIGNED,
                       numbers[i].stored);
        number_is_read(whole(numbers[i].size, WITH_SIGN, numbers[i].stored),
                       DOWRINGAF_NUMBER_SIGNED, bits);
        IS((uint64_t)(dowringaf_signed(bits) == numbers[i].with_sign), 1);
    }
}

/* The bits of what dowringaf_single and dowringaf_double make of bits. */
static uint64_t bits_of_single(uint64_t bits)
{
    float number = dowringaf_single(bits);
    uint32_t half;

    memcpy(&half, &number, sizeof half);
    return half;
}

static uint64_t bits_of_double(uint64_t bits)
{
    double number = dowringaf_double(bits);
    uint64_t all;

    memcpy(&all, &number, sizeof all);
    return all;
}

/* Zeros, the least and the greatest, infinities, and NaNs, quiet and signalling. */
static void test_reals(void)
{
    static const uint64_t singles[] = {0,          0x80000000u, 0x3FC00000,  0x00000001,
                                       0x7F7FFFFF, 0x7F800000,  0xFF800000u, 0x7FC00000,
                                       0x7FA00001, 0x7F800001,  0xFFBFFFFFu, 0x01020304};
    static const uint64_t doubles[] = {0,
                                       0x8000000000000000u,
                                       0x3FB999999999999Au,
                                       0x0000000000000001u,
                                       0x7FEFFFFFFFFFFFFFu,
                                       0x7FF0000000000000u,
                                       0xFFF0000000000000u,
                                       0x7FF8000000000000u,
                                       0x7FF4000000000001u,
                                       0x7FF0000000000001u,
                                       0xFFF7FFFFFFFFFFFFu,
                                       0x0102030405060708u};
    enum { COUNT = sizeof singles / sizeof singles[0] };
    size_t i;

    for (i = 0; i < COUNT; i++) {
        number_is_read(real(4, 0, singles[i]), DOWRINGAF_NUMBER_SINGLE, singles[i]);
        number_is_read(real(8, 0, doubles[i]), DOWRINGAF_NUMBER_DOUBLE, doubles[i]);
        IS(bits_of_single(singles[i]), singles[i]);
        IS(bits_of_double(doubles[i]), doubles[i]);
    }
    IS((uint64_t)(dowringaf_single(0x3FC00000) == 1.5f), 1);
    IS((uint64_t)(dowringaf_single(0xFF7FFFFFu) == -3.40282347e38f), 1);
    IS((uint64_t)(dowringaf_double(0x3FB999999999999Au) == 0.1), 1);
    IS((uint64_t)(dowringaf_double(0xC08F400000000000u) == -1000.0), 1);
}

/* The class bits that are ignored, all of them set; and changes of those that are not. */
static void test_class_bits(void)
{
    enum { OF_FIXED = 0xFFFFF6, OF_FLOAT = 0xFF008E, CHANGES = 12 };
    static const uint64_t changes[CHANGES] = {0x10,  0x20,  0x30,   0x40,   0x100,  0x200,
                                              0x400, 0x800, 0x1000, 0x2000, 0x4000, 0x8000};
    size_t i;

    number_is_read(whole(4, OF_FIXED, 48000), DOWRINGAF_NUMBER_UNSIGNED, 48000);
    number_is_read(whole(4, OF_FIXED | WITH_SIGN, 48000), DOWRINGAF_NUMBER_SIGNED, 48000);
    number_is_read(real(4, OF_FLOAT, 0x3FC00000), DOWRINGAF_NUMBER_SINGLE, 0x3FC00000);
    number_is_read(real(8, OF_FLOAT, 0x3FC00000), DOWRINGAF_NUMBER_DOUBLE, 0x3FC00000);
    for (i = 0; i < CHANGES; i++) {
        struct numeric n = real(4, 0, 0x3FC00000);

        n.class_bits ^= changes[i];
        number_is_read(n, DOWRINGAF_NUMBER_NONE, 0);
        n = real(8, 0, 0x3FC00000);
        n.class_bits ^= changes[i];
        number_is_read(n, DOWRINGAF_NUMBER_NONE, 0);
    }
}

/* Every other form has none: by its size, offset and precision, as a list, and by its elements. */
static void test_other_forms(void)
{
    static const struct numeric forms[] = {
        {3, FIXED, 0, 0, 0, 0, 0, 0, 1, 0, 5},
        {3, FIXED, 0, 3, 0, 24, 0, 0, 1, 0, 5},
        {3, FIXED, 0, 5, 0, 40, 0, 0, 1, 0, 5},
        {3, FIXED, 0, 7, 0, 56, 0, 0, 1, 0, 5},
        {3, FIXED, 0, 16, 0, 128, 0, 0, 1, 0, 5},
        {3, FIXED, 0, 4, 0, 31, 0, 0, 1, 0, 5},
        {3, FIXED, 0, 4, 0, 16, 0, 0, 1, 0, 5},
        {3, FIXED, 0, 4, 0, 64, 0, 0, 1, 0, 5},
        {3, FIXED, 0, 4, 0, 32 + 256, 0, 0, 1, 0, 5},
        {3, FIXED, 0, 4, 1, 31, 0, 0, 1, 0, 5},
        {3, FIXED, 0, 4, 1, 32, 0, 0, 1, 0, 5},
        {3, FIXED, 0, 4, 256, 32, 0, 0, 1, 0, 5},
        {3, FLOAT, 0x1F20, 8, 0, 32, 0, 0, 1, 0, 5},
        {3, FLOAT, 0x3F20, 8, 0, 32, 0, 0, 1, 0, 5},
        {3, FLOAT, 0x1F20, 2, 0, 32, 0, 0, 1, 0, 5},
        {3, FLOAT, 0x3F20, 4, 0, 64, 0, 0, 1, 0, 5},
        {3, FLOAT, 0x1F20, 4, 0, 64, 0, 0, 1, 0, 5},
        {3, FLOAT, 0x3F20, 16, 0, 64, 0, 0, 1, 0, 5},
        {3, FIXED, 0, 4, 0, 32, 4, 0, 1, 0, 5},
        {3, FLOAT, 0x3F20, 8, 0, 64, 8, 0, 1, 0, 5},
        {3, FIXED, 0, 4, 0, 32, 0, 1, 0, 0, 5},
        {3, FIXED, 0, 4, 0, 32, 0, 1, 2, 0, 5},
        {3, FIXED, 0, 4, 0, 32, 0, 4, 2, 0, 5},
        {3, FLOAT, 0x3F20, 8, 0, 64, 0, 2, 3, 0, 5},
        {3, FLOAT, 0x1F20, 4, 0, 32, 0, 1, 0, 1, 5},
    };
    size_t i;

    for (i = 0; i < sizeof forms / sizeof forms[0]; i++) {
        number_is_read(forms[i], DOWRINGAF_NUMBER_NONE, 0);
    }
}

/* One element: up to four sizes of 1, whatever the maximum. */
static void test_one_element(void)
{
    static const uint64_t maxima[4] = {0, 1, 7, 0xFFFFFFFFu};
    int i;

    for (i = 0; i < 20; i++) {
        struct numeric n = whole(2, WITH_SIGN, 0xFFFB);

        n.sizes = i / 4;
        n.maximum = maxima[i % 4];
        number_is_read(n, DOWRINGAF_NUMBER_SIGNED, 0xFFFFFFFFFFFFFFFBu);
        n = real(4, 0, 0x7FA00000);
        n.sizes = i / 4;
        n.maximum = maxima[i % 4];
        number_is_read(n, DOWRINGAF_NUMBER_SINGLE, 0x7FA00000);
    }
}

/*
 * A double behind the end of its entry, where the header's sum stands. It is none while it leaves
 * the file; otherwise it is read, and the header ends four bytes behind it.
 */
static void test_cut_number(void)
{
    enum { SUM = 4, BYTES = 8 };
    uint64_t expected[DOWRINGAF_ROW_WORDS];
    struct numeric n = real(BYTES, 0, 0);
    struct space s = space_of(&n);
    struct writer w;
    struct pieces p;
    size_t end;
    size_t i;

    begin_header(&w);
    p = put_before_value(&w, "Rate", &n, &s);
    end_entry(&w, p.body);
    expect_attribute(expected, &w, &p, "Rate");
    end = w.count;
    end_header(&w);
    put(&w, 0x7FF40000, BYTES - SUM);
    put(&w, 0, SUM);
    for (i = end + SUM; i < w.count; i++) {
        if (i < end + BYTES) {
            rows_are(&w, i, 0, end + SUM, expected, 1);
        } else {
            refuse(w.bytes, i, 0, OFFSET, DOWRINGAF_ROW_WORDS, DOWRINGAF_SHORT);
        }
    }
    expected[DOWRINGAF_ROW_NUMBER] = DOWRINGAF_NUMBER_DOUBLE;
    expected[DOWRINGAF_ROW_NUMBER_BITS] = 0x7FF4000000000000u | lookup3(w.bytes, end);
    rows_are(&w, w.count, 0, w.count, expected, 1);
}

/* The attributes of a file, and the numbers that they are. */
static const struct {
    const char *name;
    uint64_t number;
    uint64_t bits;
    struct numeric attribute;
} named[] = {
    {"SamplingRate", DOWRINGAF_NUMBER_UNSIGNED, 48000,
     {3, FIXED, 0, 4, 0, 32, 0, 0, 1, 0, 48000}},
    {"Channels", DOWRINGAF_NUMBER_UNSIGNED, 2,
     {1, FIXED, 0, 1, 0, 8, 0, 1, 1, 7, 2}},
    {"Serial", DOWRINGAF_NUMBER_UNSIGNED, UINT64_MAX,
     {3, FIXED, 1, 8, 0, 64, 0, 0, 1, 0, UINT64_MAX}},
    {"Pair", DOWRINGAF_NUMBER_NONE, 0,
     {3, FIXED, 0, 2, 0, 16, 0, 1, 2, 0, 5}},
    {"Offset", DOWRINGAF_NUMBER_SIGNED, 0xFFFFFFFFFFFFFFFBu,
     {3, FIXED, 9, 2, 0, 16, 0, 0, 1, 0, 0xFFFB}},
    {"Least", DOWRINGAF_NUMBER_SIGNED, 0x8000000000000000u,
     {3, FIXED, 8, 8, 0, 64, 0, 0, 1, 0, 0x8000000000000000u}},
    {"Order", DOWRINGAF_NUMBER_SIGNED, 7,
     {3, FIXED, 8, 4, 0, 32, 0, 0, 1, 0, 7}},
    {"Gain", DOWRINGAF_NUMBER_SINGLE, 0x3FC00000,
     {3, FLOAT, 0x1F20, 4, 0, 32, 0, 0, 1, 0, 0x3FC00000}},
    {"Third", DOWRINGAF_NUMBER_SINGLE, 0x3EAAAAAB,
     {3, FLOAT, 0x1F21, 4, 0, 32, 0, 0, 1, 0, 0x3EAAAAAB}},
    {"Signalling", DOWRINGAF_NUMBER_SINGLE, 0x7FA00000,
     {3, FLOAT, 0x1F20, 4, 0, 32, 0, 0, 1, 0, 0x7FA00000}},
    {"Delay", DOWRINGAF_NUMBER_DOUBLE, 0x3FB999999999999Au,
     {1, FLOAT, 0x3F21, 8, 0, 64, 0, 0, 1, 0, 0x3FB999999999999Au}},
    {"Infinity", DOWRINGAF_NUMBER_DOUBLE, 0xFFF0000000000000u,
     {3, FLOAT, 0x3F20, 8, 0, 64, 0, 0, 1, 0, 0xFFF0000000000000u}},
};

enum { NAMED = sizeof named / sizeof named[0] };

/* The file, and the rows of its root's header. */
static void write_numbers(struct writer *w, uint64_t expected[NAMED * DOWRINGAF_ROW_WORDS])
{
    size_t i;

    begin_root(w);
    for (i = 0; i < NAMED; i++) {
        const struct numeric *n = &named[i].attribute;
        uint64_t *row = expected + i * DOWRINGAF_ROW_WORDS;
        struct space s = space_of(n);
        struct pieces p = put_numeric(w, named[i].name, n, &s);

        expect_attribute(row, w, &p, named[i].name);
        row[DOWRINGAF_ROW_NUMBER] = named[i].number;
        row[DOWRINGAF_ROW_NUMBER_BITS] = named[i].bits;
    }
    end_root(w);
    write_front(w, UINT64_MAX, w->count);
}

/* A name or a part as it is listed: two words, after one that says whether they are present. */
static size_t list_pair(char *at, const uint64_t *present)
{
    if (present[0] == 0) {
        return (size_t)sprintf(at, ",-,-");
    }
    return (size_t)sprintf(at, ",%u,%u", (unsigned)present[1], (unsigned)present[2]);
}

/* The root's header, which the file ends with: its rows by every way, and as they are listed. */
static void root_rows_are(const struct writer *w, const uint64_t *expected, size_t rows)
{
    char listing[1024];
    size_t at = 0;
    size_t i;

    rows_are(w, w->count, HEADER_FROM, w->count, expected, rows);
    root_is_by_hand(w, w->count, w->count, rows * DOWRINGAF_ROW_WORDS, rows);
    for (i = 0; i < rows; i++) {
        const uint64_t *row = expected + i * DOWRINGAF_ROW_WORDS;

        at += (size_t)sprintf(listing + at, "%u,%u,%u,%u,%u", (unsigned)i,
                              (unsigned)row[DOWRINGAF_ROW_TYPE], (unsigned)row[DOWRINGAF_ROW_FLAGS],
                              (unsigned)row[DOWRINGAF_ROW_SIZE], (unsigned)row[DOWRINGAF_ROW_BODY]);
        at += list_pair(listing + at, row + DOWRINGAF_ROW_NAME);
        at += list_pair(listing + at, row + DOWRINGAF_ROW_PART);
        listing[at++] = '\n';
    }
    sprintf(listing + at, "end,%u,%u\n", (unsigned)w->count, (unsigned)rows);
    listing_is(w->bytes, w->count, listing);
}

/* Each is found by its name, and no number is listed. */
static void test_named_numbers(void)
{
    enum { WORDS = NAMED * DOWRINGAF_ROW_WORDS };
    uint64_t expected[WORDS];
    struct writer w;
    size_t i;

    write_numbers(&w, expected);
    root_rows_are(&w, expected, NAMED);
    for (i = 0; i < NAMED; i++) {
        look_up(w.bytes, w.count, expected, WORDS, NAMED, named[i].name, 0, 1, i);
    }
}

static void test_numbers(void)
{
    test_whole_numbers();
    test_reals();
    test_class_bits();
    test_other_forms();
    test_one_element();
    test_cut_number();
    test_named_numbers();
}

/* Dataspaces of every kind, and their elements. In version 1 a kind is reserved bytes. */
static const struct counted {
    struct space space;
    dowringaf_elements elements;
} counted[] = {
    {{2, 0, 0, 0, {0}, {0}}, {0, 1}},
    {{2, 0, 0, 1, {0}, {0}}, {0, 1}},
    {{2, 0, 0, 2, {0}, {0}}, {0, 0}},
    {{2, 0, 1, 2, {0}, {0}}, {0, 0}},
    {{2, 0, 0, 3, {0}, {0}}, {0, 1}},
    {{2, 0, 0, 0x82, {0}, {0}}, {0, 1}},
    {{2, 0, 0, 255, {0}, {0}}, {0, 1}},
    {{2, 1, 0, 1, {0}, {0}}, {0, 0}},
    {{2, 1, 0, 1, {1}, {0}}, {0, 1}},
    {{2, 1, 0, 0, {5}, {0}}, {0, 5}},
    {{2, 1, 0, 2, {0}, {0}}, {0, 0}},
    {{2, 1, 0, 2, {1}, {0}}, {0, 0}},
    {{2, 1, 0, 2, {1000000}, {0}}, {0, 0}},
    {{2, 1, 0, 1, {1000000}, {0}}, {0, 1000000}},
    {{2, 1, 1, 1, {0}, {5}}, {0, 0}},
    {{2, 1, 1, 1, {5}, {0}}, {0, 5}},
    {{2, 2, 1, 1, {2, 3}, {1000000, 0xFFFFFFFFu}}, {0, 6}},
    {{2, 2, 1, 2, {2, 3}, {1000000, 0xFFFFFFFFu}}, {0, 0}},
    {{2, 3, 0, 77, {1000000, 1000000, 1000000}, {0}}, {0, 1000000000000000000u}},
    {{2, 4, 0, 2, {1, 1, 1, 1}, {0}}, {0, 0}},
    {{2, 4, 0, 2, {65536, 65536, 65536, 65536}, {0}}, {0, 0}},
    {{2, 4, 0, 0, {65536, 65536, 65536, 65536}, {0}}, {1, 0}},
    {{2, 4, 1, 1, {1, 2, 3, 4}, {65536, 65536, 65536, 65536}}, {0, 24}},
    {{1, 0, 0, 0, {0}, {0}}, {0, 1}},
    {{1, 0, 0, 2, {0}, {0}}, {0, 1}},
    {{1, 1, 0, 0, {0}, {0}}, {0, 0}},
    {{1, 2, 1, 0x0202020202u, {3, 4}, {5, 6}}, {0, 12}},
    {{1, 4, 0, 2, {1000000, 1000000, 1000000, 1000000}, {0}}, {1, 0}},
};

enum { COUNTED = sizeof counted / sizeof counted[0] };

static dowringaf_dimensions dimensions_of(uint64_t count, const uint64_t *numbers)
{
    dowringaf_dimensions dimensions = {0, {0}};

    dimensions.count = count;
    memcpy(dimensions.sizes, numbers, (size_t)count * sizeof *numbers);
    return dimensions;
}

static dowringaf_dataspace dataspace_of(const struct counted *c)
{
    const struct space *s = &c->space;
    dowringaf_dataspace read;

    read.dimensionality = s->count;
    read.flags = s->flags;
    read.kind.present = s->version == 2 ? 1 : 0;
    read.kind.value = s->version == 2 ? s->kind : 0;
    read.size = dimensions_of(s->count, s->sizes);
    read.maximum_size = dimensions_of(s->flags & 1 ? s->count : 0, s->maxima);
    read.elements = c->elements;
    return read;
}

static void put_dataspace(struct writer *w, const struct space *s)
{
    size_t body = entry(w, 1, 0, 0);

    put_space(w, s);
    end_entry(w, body);
}

/* A header with some of these dataspaces: the last wins, with its own elements. */
static void spaces_are(const struct counted *const *spaces, size_t count)
{
    struct writer w;
    dowringaf_object o;
    size_t i;

    begin_header(&w);
    for (i = 0; i < count; i++) {
        put_dataspace(&w, &spaces[i]->space);
    }
    end_header(&w);
    o = read_messages(&w, count);
    o.dataspace = dataspace_of(spaces[count - 1]);
    object_is(w.bytes, w.count, 0, OFFSET, w.count, &o);
}

/* Each alone, and each behind each. */
static void test_spaces(void)
{
    const struct counted *spaces[2];
    size_t i;
    size_t j;

    for (i = 0; i < COUNTED; i++) {
        spaces[0] = &counted[i];
        spaces_are(spaces, 1);
        for (j = 0; j < COUNTED; j++) {
            spaces[1] = &counted[j];
            spaces_are(spaces, 2);
        }
    }
}

/* Four sizes in every order, in both versions. */
static void product_is(const uint64_t given[4], const dowringaf_elements *elements)
{
    struct counted c = {{0, 4, 0, 0, {0}, {0}}, {0, 0}};
    const struct counted *space = &c;
    int i;

    c.elements = *elements;
    for (i = 0; i < 128; i++) {
        int places[3] = {i & 3, i >> 2 & 3, i >> 4 & 3};

        if (places[0] != places[1] && places[0] != places[2] && places[1] != places[2]) {
            c.space.version = i < 64 ? 2 : 1;
            c.space.sizes[places[0]] = given[0];
            c.space.sizes[places[1]] = given[1];
            c.space.sizes[places[2]] = given[2];
            c.space.sizes[6 - places[0] - places[1] - places[2]] = given[3];
            spaces_are(&space, 1);
        }
    }
}

/*
 * Around 2^64. Its predecessor has a prime factor above 1,000,000; so 2^64 - 2 is the greatest
 * number of elements. From 2^64 on the next product is 2^64 + 4; another one is 56 * 2^64 + 1.
 */
static void test_products(void)
{
    static const struct {
        uint64_t sizes[4];
        dowringaf_elements elements;
    } products[] = {
        {{73, 599186, 649159, 649657}, {0, UINT64_MAX - 1}},
        {{65536, 65536, 65536, 65536}, {1, 0}},
        {{5581, 8681, 494770, 769546}, {1, 0}},
        {{10119, 335647, 469411, 647939}, {1, 0}},
        {{1000000, 1000000, 1000000, 1000000}, {1, 0}},
        {{65535, 65536, 65536, 65536}, {0, 0xFFFF000000000000u}},
        {{65537, 65536, 65536, 65536}, {1, 0}},
        {{32768, 65536, 65536, 65536}, {0, 0x8000000000000000u}},
        {{18, 1000000, 1000000, 1000000}, {0, 18000000000000000000u}},
        {{19, 1000000, 1000000, 1000000}, {1, 0}},
        {{1, 1000000, 1000000, 1000000}, {0, 1000000000000000000u}},
        {{0, 1000000, 1000000, 1000000}, {0, 0}},
        {{0, 0, 65536, 65536}, {0, 0}},
        {{1, 1, 1, 1}, {0, 1}},
    };
    size_t i;

    for (i = 0; i < sizeof products / sizeof products[0]; i++) {
        product_is(products[i].sizes, &products[i].elements);
    }
}

/* The sizes of a null dataspace are tested as those of any. */
static void test_refused_spaces(void)
{
    static const struct space spaces[] = {
        {2, 1, 0, 2, {1000001}, {0}},
        {2, 2, 0, 2, {0, 0xFFFFFFFFu}, {0}},
        {2, 4, 0, 2, {1, 1, 1, 1000001}, {0}},
        {2, 1, 1, 2, {1}, {1000001}},
        {2, 4, 1, 2, {1, 1, 1, 1}, {1, 1, 1, 1000001}},
        {3, 0, 0, 2, {0}, {0}},
    };
    struct writer w;
    size_t i;

    for (i = 0; i < sizeof spaces / sizeof spaces[0]; i++) {
        begin_header(&w);
        put_dataspace(&w, &counted[0].space);
        put_dataspace(&w, &spaces[i]);
        end_header(&w);
        refuse(w.bytes, w.count, 0, OFFSET, LENT, DOWRINGAF_DATASPACE);
    }
}

/*
 * How an attribute is read of which nothing is written behind its space: it has an empty text, or
 * no value; or it is a list whose size is passed; or it fails, and its type is where it ends.
 */
enum reading { EMPTY_TEXT, NO_VALUE, PASSED, FAILED };

/*
 * Such an attribute and, behind it, a message without a body. Without a size of its entry the next
 * one begins where the attribute ends; that of one that fails is its own type, the class bits of
 * which say how far the message is.
 */
static void reading_is(const struct numeric *n, const struct space *s, enum reading reading,
                       int has_size)
{
    uint64_t expected[3 * DOWRINGAF_ROW_WORDS] = {0};
    uint64_t *next = expected + DOWRINGAF_ROW_WORDS;
    struct writer w;
    struct pieces p;

    begin_header(&w);
    p = put_before_value(&w, "Text", n, s);
    put(&w, 0, reading == PASSED ? (int)n->list_size : 0);
    if (has_size) {
        end_entry(&w, p.body);
    }
    expect_attribute(expected, &w, &p, "Text");
    if (reading == EMPTY_TEXT) {
        expected[DOWRINGAF_ROW_PART] = 1;
        expected[DOWRINGAF_ROW_PART_POSITION] = p.value;
    }
    if (reading == FAILED && !has_size) {
        w.bytes[p.type + 1] = (uint8_t)(p.value - p.type - 4);
        next[DOWRINGAF_ROW_TYPE] = w.bytes[p.type];
        next[DOWRINGAF_ROW_SIZE] = w.bytes[p.type + 1];
        next[DOWRINGAF_ROW_BODY] = p.type + 4;
        next += DOWRINGAF_ROW_WORDS;
    }
    next[DOWRINGAF_ROW_BODY] = entry(&w, 0, 0, 0);
    end_header(&w);
    attributes_are(&w, expected, (size_t)(next - expected) / DOWRINGAF_ROW_WORDS + 1);
}

/* In both versions of attributes, with and without a size of the entry. */
static void attribute_is_read(struct numeric n, const struct space *s, enum reading reading)
{
    int i;

    for (i = 0; i < 4; i++) {
        n.version = i < 2 ? 3 : 1;
        reading_is(&n, s, reading, i % 2);
    }
}

/* Null dataspaces, with sizes and without. */
static const struct space null_spaces[] = {
    {2, 0, 0, 2, {0}, {0}},
    {2, 1, 0, 2, {0}, {0}},
    {2, 1, 0, 2, {3}, {0}},
    {2, 2, 1, 2, {1, 1}, {7, 0xFFFFFFFFu}},
    {2, 4, 0, 2, {1, 1, 1, 1}, {0}},
    {2, 4, 0, 2, {65536, 65536, 65536, 65536}, {0}},
};

enum { NULL_SPACES = sizeof null_spaces / sizeof null_spaces[0] };

/* Every class. A list uses the bytes of its size, and fails above 12, whatever its elements. */
static void test_null_attributes(void)
{
    static const struct {
        struct numeric attribute;
        enum reading reading;
    } forms[] = {
        {{0, TEXT, 0, 1, 0, 0, 0, 0, 0, 0, 0}, EMPTY_TEXT},
        {{0, TEXT, 0, 5, 0, 0, 0, 0, 0, 0, 0}, EMPTY_TEXT},
        {{0, TEXT, 0x10, 63, 0, 0, 0, 0, 0, 0, 0}, EMPTY_TEXT},
        {{0, TEXT, 0, 0, 0, 0, 0, 0, 0, 0, 0}, NO_VALUE},
        {{0, FIXED, 0, 0, 0, 0, 0, 0, 0, 0, 0}, NO_VALUE},
        {{0, FIXED, 0, 1, 0, 8, 0, 0, 0, 0, 0}, NO_VALUE},
        {{0, FIXED, 8, 2, 0, 16, 0, 0, 0, 0, 0}, NO_VALUE},
        {{0, FIXED, 0, 3, 0, 24, 0, 0, 0, 0, 0}, NO_VALUE},
        {{0, FIXED, 9, 4, 0, 32, 0, 0, 0, 0, 0}, NO_VALUE},
        {{0, FIXED, 1, 8, 0, 64, 0, 0, 0, 0, 0}, NO_VALUE},
        {{0, FIXED, 0, 63, 0, 504, 0, 0, 0, 0, 0}, NO_VALUE},
        {{0, FLOAT, 0x1F20, 4, 0, 32, 0, 0, 0, 0, 0}, NO_VALUE},
        {{0, FLOAT, 0x3F21, 8, 0, 64, 0, 0, 0, 0, 0}, NO_VALUE},
        {{0, COMPOUND, 0, 0, 0, 0, 0, 0, 0, 0, 0}, NO_VALUE},
        {{0, COMPOUND, 0, 8, 0, 0, 0, 0, 0, 0, 0}, NO_VALUE},
        {{0, REFERENCE, 0, 8, 0, 0, 0, 0, 0, 0, 0}, NO_VALUE},
        {{0, FIXED, 0, 4, 0, 32, 1, 0, 0, 0, 0}, PASSED},
        {{0, FIXED, 0, 4, 0, 32, 4, 0, 0, 0, 0}, PASSED},
        {{0, FLOAT, 0x3F20, 8, 0, 64, 8, 0, 0, 0, 0}, PASSED},
        {{0, TEXT, 0, 1, 0, 0, 12, 0, 0, 0, 0}, PASSED},
        {{0, TEXT, 0, 1, 0, 0, 13, 0, 0, 0, 0}, FAILED},
        {{0, TEXT, 0, 1, 0, 0, 16, 0, 0, 0, 0}, FAILED},
        {{0, FIXED, 0, 4, 0, 32, 63, 0, 0, 0, 0}, FAILED},
    };
    size_t i;
    size_t j;

    for (i = 0; i < sizeof forms / sizeof forms[0]; i++) {
        for (j = 0; j < NULL_SPACES; j++) {
            attribute_is_read(forms[i].attribute, &null_spaces[j], forms[i].reading);
        }
    }
}

/* No elements for another reason, too many, and a size that a null dataspace must not have. */
static void test_other_elements(void)
{
    static const struct space none = {2, 2, 0, 1, {3, 0}, {0}};
    static const struct space half = {2, 4, 0, 1, {65536, 65536, 65536, 32768}, {0}};
    static const struct space too_many = {2, 4, 0, 1, {65536, 65536, 65536, 65536}, {0}};
    static const struct space one_more = {2, 4, 0, 1, {10119, 335647, 469411, 647939}, {0}};
    static const struct space refused = {2, 1, 0, 2, {1000001}, {0}};
    static const struct {
        struct numeric attribute;
        const struct space *space;
        enum reading reading;
    } forms[] = {
        {{0, TEXT, 0, 5, 0, 0, 0, 0, 0, 0, 0}, &none, EMPTY_TEXT},
        {{0, TEXT, 0, 0, 0, 0, 0, 0, 0, 0, 0}, &none, NO_VALUE},
        {{0, TEXT, 0, 2, 0, 0, 0, 0, 0, 0, 0}, &half, FAILED},
        {{0, TEXT, 0, 1, 0, 0, 0, 0, 0, 0, 0}, &too_many, FAILED},
        {{0, TEXT, 0, 0, 0, 0, 0, 0, 0, 0, 0}, &too_many, NO_VALUE},
        {{0, TEXT, 0, 1, 0, 0, 0, 0, 0, 0, 0}, &one_more, FAILED},
        {{0, TEXT, 0, 1, 0, 0, 0, 0, 0, 0, 0}, &refused, FAILED},
        {{0, FIXED, 0, 4, 0, 32, 0, 0, 0, 0, 0}, &none, NO_VALUE},
        {{0, FIXED, 0, 2, 0, 16, 0, 0, 0, 0, 0}, &half, NO_VALUE},
        {{0, FIXED, 0, 1, 0, 8, 0, 0, 0, 0, 0}, &too_many, NO_VALUE},
        {{0, FIXED, 0, 0, 0, 0, 0, 0, 0, 0, 0}, &too_many, NO_VALUE},
        {{0, FIXED, 0, 1, 0, 8, 0, 0, 0, 0, 0}, &one_more, NO_VALUE},
        {{0, FLOAT, 0x3F20, 8, 0, 64, 0, 0, 0, 0, 0}, &one_more, NO_VALUE},
        {{0, TEXT, 0, 1, 0, 0, 12, 0, 0, 0, 0}, &too_many, PASSED},
        {{0, TEXT, 0, 1, 0, 0, 16, 0, 0, 0, 0}, &too_many, FAILED},
    };
    size_t i;

    for (i = 0; i < sizeof forms / sizeof forms[0]; i++) {
        attribute_is_read(forms[i].attribute, forms[i].space, forms[i].reading);
    }
}

/* A value that is there is a number for every kind but 2, and in version 1, which has none. */
static void test_kinds(void)
{
    static const uint64_t kinds[] = {0, 1, 3, 0x82, 254, 255};
    static const struct space reserved = {1, 0, 0, 0x0202020202u, {0}, {0}};
    struct space s = {2, 0, 0, 0, {1}, {0}};
    struct numeric n = whole(4, WITH_SIGN, 48000);
    size_t i;

    for (n.version = 1; n.version <= 3; n.version += 2) {
        number_is(&n, &reserved, DOWRINGAF_NUMBER_SIGNED, 48000);
        for (i = 0; i < sizeof kinds / sizeof kinds[0]; i++) {
            s.kind = kinds[i];
            for (s.count = 0; s.count < 2; s.count++) {
                number_is(&n, &s, DOWRINGAF_NUMBER_SIGNED, 48000);
            }
        }
        for (i = 0; i < NULL_SPACES; i++) {
            number_is(&n, &null_spaces[i], DOWRINGAF_NUMBER_NONE, 0);
        }
    }
}

/* The attributes of a file that are in null dataspaces, and how they are read. */
static const struct {
    const char *name;
    enum reading reading;
    struct numeric attribute;
} nulls[] = {
    {"Title", EMPTY_TEXT, {3, TEXT, 0, 5, 0, 0, 0, 0, 0, 0, 0}},
    {"Comment", EMPTY_TEXT, {1, TEXT, 0, 16, 0, 0, 0, 0, 0, 0, 0}},
    {"SamplingRate", NO_VALUE, {3, FIXED, 0, 4, 0, 32, 0, 0, 0, 0, 0}},
    {"Gain", NO_VALUE, {1, FLOAT, 0x1F20, 4, 0, 32, 0, 0, 0, 0, 0}},
    {"History", FAILED, {3, TEXT, 0, 1, 0, 0, 16, 0, 0, 0, 0}},
};

/* Behind them a number stands, and a null dataspace with a size. */
enum { NULLS = sizeof nulls / sizeof nulls[0], NULL_ROWS = NULLS + 2 };

static void write_null(struct writer *w, uint64_t *row, const char *name, enum reading reading,
                       const struct numeric *n)
{
    struct pieces p = put_numeric(w, name, n, &null_spaces[0]);

    expect_attribute(row, w, &p, name);
    if (reading == EMPTY_TEXT) {
        row[DOWRINGAF_ROW_PART] = 1;
        row[DOWRINGAF_ROW_PART_POSITION] = p.value;
    }
}

/* The file, and the rows of its root's header. */
static void write_nulls(struct writer *w, uint64_t expected[NULL_ROWS * DOWRINGAF_ROW_WORDS])
{
    static const struct space with_size = {2, 1, 0, 2, {3}, {0}};
    uint64_t *number = expected + NULLS * DOWRINGAF_ROW_WORDS;
    uint64_t *space = number + DOWRINGAF_ROW_WORDS;
    struct numeric channels = whole(1, 0, 2);
    struct space one = space_of(&channels);
    struct pieces p;
    size_t i;

    begin_root(w);
    for (i = 0; i < NULLS; i++) {
        write_null(w, expected + i * DOWRINGAF_ROW_WORDS, nulls[i].name, nulls[i].reading,
                   &nulls[i].attribute);
    }
    p = put_numeric(w, "Channels", &channels, &one);
    expect_attribute(number, w, &p, "Channels");
    number[DOWRINGAF_ROW_NUMBER] = DOWRINGAF_NUMBER_UNSIGNED;
    number[DOWRINGAF_ROW_NUMBER_BITS] = 2;
    memset(space, 0, DOWRINGAF_ROW_WORDS * sizeof *space);
    space[DOWRINGAF_ROW_TYPE] = 1;
    space[DOWRINGAF_ROW_SIZE] = 4 + LENGTH;
    space[DOWRINGAF_ROW_BODY] = w->count + 4;
    put_dataspace(w, &with_size);
    end_root(w);
    write_front(w, UINT64_MAX, w->count);
}

/* An empty text is listed, and each is found by its name. */
static void test_named_nulls(void)
{
    enum { WORDS = NULL_ROWS * DOWRINGAF_ROW_WORDS };
    uint64_t expected[WORDS];
    struct writer w;
    size_t i;

    write_nulls(&w, expected);
    root_rows_are(&w, expected, NULL_ROWS);
    for (i = 0; i < NULLS; i++) {
        look_up(w.bytes, w.count, expected, WORDS, NULL_ROWS, nulls[i].name, 0, 1, i);
    }
}

static void test_elements(void)
{
    test_spaces();
    test_products();
    test_refused_spaces();
    test_null_attributes();
    test_other_elements();
    test_kinds();
    test_named_nulls();
}

/* Something that closes with a sum: where that begins and stands, and a byte that may be any. */
struct closing {
    size_t from;
    size_t end;
    size_t any;
};

/* The superblock, the header, a block that the header leads to, and one that the block leads to. */
enum { CLOSINGS = 4, BLOCK = 2, INNER = 3 };

/* An entry that is skipped, of one byte, and the sum. */
enum { CLOSING_BYTES = 4 + 1 + 4 };

static void put_closing(struct writer *w, struct closing *c)
{
    c->any = entry(w, 0, 1, 0);
    put(w, 0x5A, 1);
    c->end = w->count;
    put_sum(w, c->from);
}

/* An entry that leads to a block behind the closing that follows. */
enum { LEADING_BYTES = 4 + OFFSET + LENGTH };

static void put_leading(struct writer *w, int block_bytes)
{
    size_t body = entry(w, 16, OFFSET + LENGTH, 0);

    put(w, body + OFFSET + LENGTH + CLOSING_BYTES, OFFSET);
    put(w, (uint64_t)block_bytes, LENGTH);
}

static void write_nested(struct writer *w, struct closing c[CLOSINGS])
{
    int i;

    w->count = SUPERBLOCK;
    put_text(w, "xyz");
    c[1].from = w->count;
    put_text(w, "OHDR\2");
    put(w, 0, 1);
    put(w, LEADING_BYTES + CLOSING_BYTES - 4, 1);
    put_leading(w, 4 + LEADING_BYTES + CLOSING_BYTES);
    put_closing(w, &c[1]);
    for (i = BLOCK; i <= INNER; i++) {
        c[i].from = w->count;
        put_text(w, "OCHK");
        if (i == BLOCK) {
            put_leading(w, 4 + CLOSING_BYTES);
        }
        put_closing(w, &c[i]);
    }
    write_front(w, UINT64_MAX, w->count);
    c[0].from = 0;
    c[0].end = SUPERBLOCK - 4;
    c[0].any = FLAGS_AT;
}

/* The nested header by hand, for which no superblock is read. */
static void nested_is_read(const struct writer *w, const struct closing c[CLOSINGS])
{
    uint8_t *file = copy(w->bytes, w->count);
    uint64_t *table = ones(LENT);
    dowringaf_object *o = object_of_ones();
    struct header h = header_at(file, w->count, HEADER_FROM, w->count);

    pair_is(&h, passed_with(c[1].end + 4, 5, 3), 3);
    fill(&h, table, LENT, o);
    IS(o->refused, 0);
    IS(o->next, c[1].end + 4);
    IS(o->entries, 5);
    IS(o->rows, 3);
    IS(table[DOWRINGAF_ROW_BODY], c[INNER].any);
    free(file);
    free(table);
    free(o);
}

/* A false sum is refused by every function that meets it, and by no other. */
static void refuse_sum(const struct writer *w, const struct closing c[CLOSINGS], int false_one)
{
    uint8_t *file = copy(w->bytes, w->count);

    if (false_one == 0) {
        refuse_superblock(file, w->count, DOWRINGAF_CHECKSUM);
        nested_is_read(w, c);
    } else {
        IS(dowringaf_super_block(file, w->count).refused, 0);
        refuse(file, w->count, HEADER_FROM, OFFSET, LENT, DOWRINGAF_CHECKSUM);
        refuse_root(file, w->count, DOWRINGAF_CHECKSUM);
    }
    free(file);
}

/* Every bit of a sum, and of a byte that nothing but the sum depends on. */
static void test_sums(void)
{
    struct writer w;
    struct closing c[CLOSINGS];
    int i;
    int bit;

    write_nested(&w, c);
    nested_is_read(&w, c);
    root_is_by_hand(&w, w.count, w.count, LENT, 3);
    for (i = 0; i < CLOSINGS; i++) {
        for (bit = 0; bit < 8; bit++) {
            w.bytes[c[i].any] ^= (uint8_t)(1 << bit);
            refuse_sum(&w, c, i);
            w.bytes[c[i].any] ^= (uint8_t)(1 << bit);
        }
        for (bit = 0; bit < 32; bit++) {
            w.bytes[c[i].end + (size_t)bit / 8] ^= (uint8_t)(1 << bit % 8);
            refuse_sum(&w, c, i);
            w.bytes[c[i].end + (size_t)bit / 8] ^= (uint8_t)(1 << bit % 8);
        }
    }
}

/*
 * A sum is tested last: all else that is in the header or the block counts before, and a block's
 * sum before what follows the entry that leads to the block.
 */
static void test_sum_order(void)
{
    enum { TWO_ROWS = 2 * DOWRINGAF_ROW_WORDS };
    struct writer w;
    struct closing c[CLOSINGS];
    size_t n;
    int i;

    write_small(&w);
    w.bytes[w.count - 4] ^= 1;
    refuse(w.bytes, w.count, SUPERBLOCK, OFFSET, TWO_ROWS, DOWRINGAF_CHECKSUM);
    refuse(w.bytes, w.count, SUPERBLOCK, OFFSET, TWO_ROWS - 1, DOWRINGAF_TABLE);
    for (n = w.count - 3; n < w.count; n++) {
        refuse(w.bytes, n, SUPERBLOCK, OFFSET, TWO_ROWS, DOWRINGAF_SHORT);
    }
    for (i = 1; i < INNER; i++) {
        write_nested(&w, c);
        w.bytes[c[i].any - 1] = 2;
        refuse(w.bytes, w.count, HEADER_FROM, OFFSET, LENT, DOWRINGAF_ENTRY_FLAGS);
        w.bytes[c[i + 1].end] ^= 1;
        refuse(w.bytes, w.count, HEADER_FROM, OFFSET, LENT, DOWRINGAF_CHECKSUM);
    }
}

/* Refused by both, with some rows taken before. */
static void refuse_after(const struct writer *w, size_t n, uint64_t number, uint64_t taken)
{
    uint8_t *file = copy(w->bytes, n);
    struct header h = header_at(file, n, HEADER_FROM, w->count);

    pair_is(&h, refused_with(number), taken);
    free(file);
}

/* The messages of the full header that end within some bytes; the last one's data end the file. */
static uint64_t ended_within(const struct places *p, size_t n)
{
    uint64_t ended = 0;
    size_t i;

    for (i = 0; i < MESSAGES - 1; i++) {
        ended += p->body[i] + sizes[i] <= n;
    }
    return ended;
}

/* How many rows are taken before the full header is cut, or an entry or its sum is wrong. */
static void test_taken(void)
{
    struct writer w;
    struct places p;
    size_t i;

    write_full(&w, &p);
    for (i = 0; i < w.count; i++) {
        refuse_after(&w, i, DOWRINGAF_SHORT, ended_within(&p, i));
    }
    for (i = 0; i < MESSAGES; i++) {
        write_full(&w, &p);
        w.bytes[p.body[i] - 1] = 2;
        refuse_after(&w, w.count, DOWRINGAF_ENTRY_FLAGS, i);
    }
    write_full(&w, &p);
    w.bytes[p.next - 1] ^= 1;
    refuse_after(&w, w.count, DOWRINGAF_CHECKSUM, MESSAGES);
}

/* The same before the sums of blocks: the innermost is tested when one row is taken. */
static void test_taken_in_blocks(void)
{
    static const uint64_t taken[CLOSINGS] = {0, 3, 2, 1};
    struct writer w;
    struct closing c[CLOSINGS];
    size_t i;

    for (i = 1; i < CLOSINGS; i++) {
        write_nested(&w, c);
        w.bytes[c[i].end] ^= 1;
        refuse_after(&w, w.count, DOWRINGAF_CHECKSUM, taken[i]);
    }
}

/* What either operation is refused for before it reads the header, and files of no bytes. */
static void test_refused_checks(void)
{
    enum { COUNT = 6 };
    static const uint64_t widths[COUNT] = {0, 1, 9, 256 + OFFSET, 256 + LENGTH, UINT64_MAX};
    struct writer w;
    struct places p;
    uint8_t *file;
    struct header h;
    size_t i;

    write_full(&w, &p);
    file = copy(w.bytes, w.count);
    for (i = 0; i < COUNT; i++) {
        h = header_at(file, w.count, HEADER_FROM, w.count);
        h.offset_width = widths[i];
        pair_is(&h, refused_with(DOWRINGAF_WIDTH), 0);
        h = header_at(file, w.count, HEADER_FROM, w.count);
        h.length_width = widths[i];
        pair_is(&h, refused_with(DOWRINGAF_WIDTH), 0);
        h = header_at(file, w.count, UINT64_MAX - i, w.count);
        pair_is(&h, refused_with(DOWRINGAF_SHORT), 0);
        h = header_at(file, w.count, HEADER_FROM | (uint64_t)1 << (63 - 8 * i), w.count);
        pair_is(&h, refused_with(DOWRINGAF_SHORT), 0);
        h = header_at(NULL, 0, i, w.count);
        pair_is(&h, refused_with(DOWRINGAF_SHORT), 0);
    }
    free(file);
}

/* A file whose root's header has some entries without a body. */
static uint8_t *many_entries(size_t entries, size_t *bytes)
{
    size_t end = SUPERBLOCK + 8 + entries * 4;
    uint8_t *file = block(end + 4, 1);
    struct writer w;

    w.count = 0;
    put_superblock(&w, OFFSET, LENGTH, UINT64_MAX, end + 4, SUPERBLOCK);
    put_text(&w, "OHDR\2\1");
    put(&w, entries * 4, 2);
    memset(file, 0, end);
    memcpy(file, w.bytes, w.count);
    make_true(file, SUPERBLOCK, end);
    *bytes = end + 4;
    return file;
}

/* Both operations on as many entries as there may be, and on one more. */
static void test_most_entries(void)
{
    enum { MOST = 4096 };
    size_t n;
    uint8_t *file = many_entries(MOST, &n);
    struct header h = header_at(file, n, SUPERBLOCK, n);

    pair_is(&h, passed_with(n, MOST, MOST), MOST);
    compare_checked(dowringaf_check_root_object(file, n), passed_with(n, MOST, MOST));
    free(file);
    file = many_entries(MOST + 1, &n);
    h = header_at(file, n, SUPERBLOCK, n);
    pair_is(&h, refused_with(DOWRINGAF_ENTRIES), MOST);
    compare_checked(dowringaf_check_root_object(file, n), refused_with(DOWRINGAF_ENTRIES));
    free(file);
}

/*
 * The listing lends 512 rows. More are refused for that where nothing else is wrong, and otherwise
 * for what is wrong behind them: a last entry, its end, or the sum.
 */
static void test_listed_rows(void)
{
    enum { LISTED = 512 };
    uint8_t *out = block(DOWRINGAF_LISTING, 1);
    size_t n;
    uint8_t *file = many_entries(LISTED, &n);
    size_t length = dowringaf_list(file, n, out);

    IS((uint64_t)(length > 13 && memcmp(out + length - 13, "end,2108,512\n", 13) == 0), 1);
    free(file);
    free(out);
    file = many_entries(LISTED + 1, &n);
    listing_is(file, n, "refused,24\n");
    compare_checked(dowringaf_check_root_object(file, n), passed_with(n, LISTED + 1, LISTED + 1));
    file[n - 1] ^= 1;
    listing_is(file, n, "refused,28\n");
    free(file);
    file = many_entries(LISTED + 2, &n);
    listing_is(file, n, "refused,24\n");
    listing_is(file, n - 5, "refused,3\n");
    file[n - 5] = 2;
    listing_is(file, n, "refused,8\n");
    free(file);
}

/* A file that cannot be written: a header of two messages, and one without entries. */
static void test_constant(void)
{
    static const uint8_t file[] =
        "OHDR\2\0\14\0\2\0\0\252\273\12\2\0\0\0\0\337\234\322\331"
        "OHDR\2\0\0\357\27\4\254";
    enum { BYTES = sizeof file - 1, SECOND = 23 };
    struct header h = header_at(file, BYTES, 0, BYTES);

    pair_is(&h, passed_with(SECOND, 2, 2), 2);
    h.position = SECOND;
    pair_is(&h, passed_with(BYTES, 0, 0), 0);
    compare_checked(dowringaf_check_root_object(file, BYTES),
                    refused_with(DOWRINGAF_SUPERBLOCK_SIGNATURE));
}

/* The filling believes nothing: a header that is another one since it was checked. */
static void test_changed(void)
{
    struct writer w;
    struct header h;

    write_small(&w);
    h = header_at(w.bytes, w.count, SUPERBLOCK, w.count);
    check_is(&h, passed_with(71, 2, 2));
    w.bytes[SUPERBLOCK + 11] ^= 1;
    check_is(&h, refused_with(DOWRINGAF_CHECKSUM));
    filling_is(&h, 2 * DOWRINGAF_ROW_WORDS, refused_with(DOWRINGAF_CHECKSUM));
    memset(w.bytes + SUPERBLOCK + 7, 0, 12);
    make_true(w.bytes, SUPERBLOCK, w.count - 4);
    filling_is(&h, 2 * DOWRINGAF_ROW_WORDS, refused_with(DOWRINGAF_TABLE));
    check_is(&h, passed_with(71, 3, 3));
    filling_is(&h, 3 * DOWRINGAF_ROW_WORDS, passed_with(71, 3, 3));
}

/* A set of names, and the table and the file that they are looked up in. */
struct set {
    const uint8_t *file;
    size_t bytes;
    const uint64_t *table;
    size_t words;
    size_t rows;
    const uint8_t *text;
    size_t text_bytes;
    const uint64_t *names;
    size_t name_words;
    size_t lent;
};

/* Whether so many bytes from a position on lie within a length. */
static int lies(uint64_t position, uint64_t length, size_t bytes)
{
    return position <= bytes && length <= bytes - position;
}

static int bears(const struct set *s, const uint64_t *row, const uint8_t *name, uint64_t length)
{
    uint64_t position = row[DOWRINGAF_ROW_NAME_POSITION];

    return row[DOWRINGAF_ROW_TYPE] == 12 && row[DOWRINGAF_ROW_NAME] == 1 &&
           row[DOWRINGAF_ROW_NAME_LENGTH] == length && lies(position, length, s->bytes) &&
           (length == 0 || memcmp(s->file + position, name, length) == 0);
}

/* The first row that bears name k, plus 1, by a search of this program's own. */
static uint64_t expected_row(const struct set *s, size_t k)
{
    uint64_t position = s->names[2 * k];
    uint64_t length = s->names[2 * k + 1];
    size_t i;

    if (!lies(position, length, s->text_bytes)) {
        return 0;
    }
    for (i = 0; i < s->rows; i++) {
        const uint8_t *name = length == 0 ? NULL : s->text + position;

        if (bears(s, s->table + i * DOWRINGAF_ROW_WORDS, name, length)) {
            return i + 1;
        }
    }
    return 0;
}

static uint64_t expected_refusal(const struct set *s)
{
    size_t names = s->name_words / 2;

    if (names > DOWRINGAF_MOST_NAMES || names > s->lent) {
        return DOWRINGAF_NAMES;
    }
    return s->words / DOWRINGAF_ROW_WORDS < s->rows ? DOWRINGAF_TABLE : 0;
}

/* What the single lookup says of name k, which lies in the text. */
static void single_is(const struct set *s, size_t k, uint64_t answer)
{
    uint8_t *name = copy(s->names[2 * k + 1] == 0 ? NULL : s->text + s->names[2 * k],
                         s->names[2 * k + 1]);
    dowringaf_found one = dowringaf_lookup(s->file, s->bytes, s->table, s->words, s->rows, name,
                                           s->names[2 * k + 1]);

    IS(one.refused, 0);
    IS(one.found == 0 ? 0 : one.row + 1, answer);
    free(name);
}

/* What a set leaves in answers that held ones. */
static uint64_t *answers_of(const struct set *s, uint64_t refused)
{
    uint64_t *answers = ones(s->lent);

    IS(dowringaf_lookup_names(s->file, s->bytes, s->table, s->words, s->rows, s->text,
                              s->text_bytes, s->names, s->name_words, answers, s->lent),
       refused);
    return answers;
}

/* A whole set: what it yields, every answer lent, and each beside the single lookup's. */
static void set_is(const struct set *s)
{
    uint64_t refused = expected_refusal(s);
    uint64_t *answers = answers_of(s, refused);
    size_t k;

    for (k = 0; k < s->lent; k++) {
        int is_name = refused == 0 && k < s->name_words / 2;

        IS(answers[k], is_name ? expected_row(s, k) : 0);
        if (is_name && lies(s->names[2 * k], s->names[2 * k + 1], s->text_bytes)) {
            single_is(s, k, answers[k]);
        }
    }
    free(answers);
}

static uint64_t *copy_words(const uint64_t *from, size_t words)
{
    return (uint64_t *)copy((const uint8_t *)from, words * sizeof *from);
}

/* The same set, in blocks of its own. */
static struct set copy_set(const struct set *s)
{
    struct set own = *s;

    own.file = copy(s->file, s->bytes);
    own.table = copy_words(s->table, s->words);
    own.text = copy(s->text, s->text_bytes);
    own.names = copy_words(s->names, s->name_words);
    return own;
}

static void free_set(struct set *s)
{
    free((void *)s->file);
    free((void *)s->table);
    free((void *)s->text);
    free((void *)s->names);
}

/* A set as above, and its answers as they are written down. */
static void answers_are(const struct set *s, uint64_t refused, const uint64_t *expected)
{
    struct set own = copy_set(s);
    uint64_t *answers = answers_of(&own, refused);
    size_t k;

    for (k = 0; k < s->lent; k++) {
        IS(answers[k], expected == NULL ? 0 : expected[k]);
    }
    free(answers);
    set_is(&own);
    free_set(&own);
}

enum { NAMED_ROWS = 4 };

/* A row of a table, with the name at a place. */
static void name_row(uint64_t *row, uint64_t type, uint64_t position, uint64_t length)
{
    memset(row, 0, DOWRINGAF_ROW_WORDS * sizeof *row);
    row[DOWRINGAF_ROW_TYPE] = type;
    row[DOWRINGAF_ROW_NAME] = 1;
    row[DOWRINGAF_ROW_NAME_POSITION] = position;
    row[DOWRINGAF_ROW_NAME_LENGTH] = length;
}

/* Rows with the names Title and Comment, one of another type, and Title again. */
static struct set some_names(uint64_t table[NAMED_ROWS * DOWRINGAF_ROW_WORDS])
{
    static const uint8_t file[] = "TitleCommentTitle";
    struct set s;

    name_row(table, 12, 0, 5);
    name_row(table + DOWRINGAF_ROW_WORDS, 12, 5, 7);
    name_row(table + 2 * DOWRINGAF_ROW_WORDS, 13, 5, 7);
    name_row(table + 3 * DOWRINGAF_ROW_WORDS, 12, 12, 5);
    memset(&s, 0, sizeof s);
    s.file = file;
    s.bytes = sizeof file - 1;
    s.table = table;
    s.words = NAMED_ROWS * DOWRINGAF_ROW_WORDS;
    s.rows = NAMED_ROWS;
    return s;
}

/*
 * Names that are found, in an order that is not the rows', and others: twice the same, overlapping,
 * one byte short or long, at the text's end and past it, and with a sum of 2^64 and more.
 */
static void test_some_names(void)
{
    static const uint8_t text[] = "CommentTitleX";
    static const uint64_t names[] = {0, 7, 7, 5, 0, 7, 7, 6, 7, 4, 13, 0, 14, 0, 12, 2,
                                     UINT64_MAX, 6, 7, UINT64_MAX - 1, 8, UINT64_MAX, 99};
    static const uint64_t expected[] = {2, 1, 2, 0, 0, 0, 0, 0, 0, 0, 0, 0, 0};
    uint64_t table[NAMED_ROWS * DOWRINGAF_ROW_WORDS];
    struct set s = some_names(table);

    s.text = text;
    s.text_bytes = sizeof text - 1;
    s.names = names;
    s.name_words = sizeof names / sizeof names[0];
    s.lent = sizeof expected / sizeof expected[0];
    answers_are(&s, 0, expected);
    s.lent = 11;
    answers_are(&s, 0, expected);
    s.lent = 10;
    answers_are(&s, DOWRINGAF_NAMES, NULL);
    s.rows = NAMED_ROWS + 1;
    answers_are(&s, DOWRINGAF_NAMES, NULL);
    s.lent = 11;
    answers_are(&s, DOWRINGAF_TABLE, NULL);
}

/* An empty name is found where a row bears one, at the text's very end too, but not past it. */
static void test_empty_names(void)
{
    static const uint64_t names[] = {0, 0, 3, 0, 4, 0};
    static const uint64_t expected[] = {3, 3, 0};
    uint64_t table[NAMED_ROWS * DOWRINGAF_ROW_WORDS];
    struct set s = some_names(table);

    name_row(table + 2 * DOWRINGAF_ROW_WORDS, 12, s.bytes, 0);
    s.text = (const uint8_t *)"abc";
    s.text_bytes = 3;
    s.names = names;
    s.name_words = 6;
    s.lent = 3;
    answers_are(&s, 0, expected);
    name_row(table + 2 * DOWRINGAF_ROW_WORDS, 12, s.bytes + 1, 0);
    answers_are(&s, 0, NULL);
}

/* 32 names and 33, with more answers and without any; and no name, which the rows still refuse. */
static void test_many_names(void)
{
    uint64_t names[2 * (DOWRINGAF_MOST_NAMES + 1)];
    uint64_t expected[DOWRINGAF_MOST_NAMES];
    uint64_t table[NAMED_ROWS * DOWRINGAF_ROW_WORDS];
    struct set s = some_names(table);
    size_t k;

    for (k = 0; k <= DOWRINGAF_MOST_NAMES; k++) {
        names[2 * k] = 0;
        names[2 * k + 1] = 5;
    }
    for (k = 0; k < DOWRINGAF_MOST_NAMES; k++) {
        expected[k] = 1;
    }
    s.text = (const uint8_t *)"Title";
    s.text_bytes = 5;
    s.names = names;
    s.name_words = 2 * DOWRINGAF_MOST_NAMES;
    s.lent = DOWRINGAF_MOST_NAMES;
    answers_are(&s, 0, expected);
    s.name_words++;
    answers_are(&s, 0, expected);
    s.name_words++;
    s.lent = 100;
    answers_are(&s, DOWRINGAF_NAMES, NULL);
    s.name_words = 2;
    s.lent = 0;
    answers_are(&s, DOWRINGAF_NAMES, NULL);
    s.name_words = 1;
    answers_are(&s, 0, NULL);
    s.rows = NAMED_ROWS + 1;
    answers_are(&s, DOWRINGAF_TABLE, NULL);
    memset(&s, 0, sizeof s);
    answers_are(&s, 0, NULL);
    s.rows = 1;
    s.lent = 3;
    answers_are(&s, DOWRINGAF_TABLE, NULL);
}

/* Numbers that look like any, and are the same in every run. */
static uint64_t next_random(uint64_t *state, uint64_t below)
{
    *state = *state * 6364136223846793005u + 1442695040888963407u;
    return (*state >> 33) % below;
}

/* A place near a length's end, mostly within it. */
static void put_place(uint64_t *state, uint64_t *place, size_t bytes)
{
    place[0] = next_random(state, bytes + 2);
    place[1] = next_random(state, 4);
    if (next_random(state, 64) == 0) {
        place[next_random(state, 2)] = UINT64_MAX - next_random(state, 8);
    }
}

enum { RANDOM_ROWS = 9, RANDOM_NAMES = 36, LETTERS = 12, RANDOM_SETS = 20000 };

/* Letters a and b, in a block of their number. */
static uint8_t *random_letters(uint64_t *state, size_t bytes)
{
    uint8_t *letters = block(bytes, 1);
    size_t i;

    for (i = 0; i < bytes; i++) {
        letters[i] = (uint8_t)('a' + next_random(state, 2));
    }
    return letters;
}

/* A file, and rows over it, most of them attributes with a name; and how many rows are told. */
static void put_random_table(uint64_t *state, struct set *s)
{
    size_t rows = next_random(state, RANDOM_ROWS + 1);
    uint64_t *table;
    size_t i;

    s->bytes = next_random(state, LETTERS + 1);
    s->file = random_letters(state, s->bytes);
    s->words = rows * DOWRINGAF_ROW_WORDS + next_random(state, DOWRINGAF_ROW_WORDS);
    s->table = table = ones(s->words);
    for (i = 0; i < rows; i++) {
        uint64_t *row = table + i * DOWRINGAF_ROW_WORDS;

        name_row(row, next_random(state, 8) == 0 ? 1 : 12, 0, 0);
        put_place(state, row + DOWRINGAF_ROW_NAME_POSITION, s->bytes);
        row[DOWRINGAF_ROW_NAME] = next_random(state, 8) == 0 ? next_random(state, 4) : 1;
    }
    s->rows = next_random(state, 8) == 0 ? next_random(state, rows + 2) : rows;
}

/* A text, and names in it, few or some of the most; and how many answers are lent. */
static void put_random_names(uint64_t *state, struct set *s)
{
    size_t names = next_random(state, next_random(state, 8) == 0 ? RANDOM_NAMES + 1 : 8);
    uint64_t *places;
    size_t k;

    s->name_words = 2 * names + next_random(state, 2);
    s->names = places = ones(s->name_words);
    s->text_bytes = next_random(state, LETTERS + 1);
    s->text = random_letters(state, s->text_bytes);
    for (k = 0; k < names; k++) {
        put_place(state, places + 2 * k, s->text_bytes);
    }
    s->lent = next_random(state, 8) == 0 ? next_random(state, names + 1)
                                         : names + next_random(state, 3);
}

/* Sets over tables, files and texts of two letters, so that names often occur. */
static void test_random_names(void)
{
    uint64_t state = 209;
    struct set s;
    int i;

    for (i = 0; i < RANDOM_SETS; i++) {
        put_random_table(&state, &s);
        put_random_names(&state, &s);
        set_is(&s);
        free_set(&s);
    }
}

/* Many names in one call. */
static void test_names(void)
{
    test_some_names();
    test_empty_names();
    test_many_names();
    test_random_names();
}

/* The library is of the version that its header says. */
static void test_version(void)
{
    IS(dowringaf_version(), DOWRINGAF_LIBRARY_VERSION);
}

/* Words of plain letters, and no other refusal has them. */
static void words_are_plain(size_t number)
{
    const char *words = refusal_words[number];
    size_t i;

    for (i = 0; words[i] != '\0'; i++) {
        IS(32 <= words[i] && words[i] <= 126, 1);
    }
    IS(i != 0, 1);
    for (i = 1; i < number; i++) {
        IS(strcmp(words, refusal_words[i]) != 0, 1);
    }
}

/* Every refusal of dowringaf.h has words, and nothing else has. */
static void test_refusal_words(void)
{
    size_t number;

    IS(REFUSALS, DOWRINGAF_NAMES + 1);
    IS(refusal_words[0] == NULL, 1);
    for (number = 1; number < REFUSALS; number++) {
        IS(refusal_words[number] != NULL, 1);
        words_are_plain(number);
    }
}

/* Names and texts that would add lines and fields, or speak to a terminal. */
static const struct {
    const char *name;
    const char *text;
} hostile[] = {
    {"Title", "ok\nrefused,28\n\033[2J"},
    {"a,b\\x\377", " ~\177\037"},
};

static void write_hostile(struct writer *w)
{
    static const struct space one = {2, 0, 0, 0, {0}, {0}};
    size_t i;

    begin_root(w);
    for (i = 0; i < sizeof hostile / sizeof hostile[0]; i++) {
        struct numeric n = {3, TEXT, 0, 0, 0, 0, 0, 0, 0, 0, 0};
        struct pieces p;

        n.size = strlen(hostile[i].text);
        p = put_before_value(w, hostile[i].name, &n, &one);
        put_text(w, hostile[i].text);
        end_entry(w, p.body);
    }
    end_root(w);
    write_front(w, UINT64_MAX, w->count);
}

/* Closes what was written. Yields 0 where that is not all, and says so. */
static int close_file(const char *path, FILE *stream, int written)
{
    if (stream != NULL) {
        written = fclose(stream) == 0 && written;
    }
    if (!written) {
        fprintf(stderr, "%s: cannot be written\n", path);
    }
    return written;
}

static int write_file(const char *path, const struct writer *w)
{
    FILE *stream = fopen(path, "wb");
    int written = stream != NULL && fwrite(w->bytes, 1, w->count, stream) == w->count;

    return close_file(path, stream, written);
}

/* The words of the refusals, a line for each. */
static int write_refusals(const char *path)
{
    FILE *stream = fopen(path, "wb");
    int written = stream != NULL;
    size_t number;

    for (number = 1; written && number < REFUSALS; number++) {
        written = fprintf(stream, "%u: %s\n", (unsigned)number, refusal_words[number]) > 0;
    }
    return close_file(path, stream, written);
}

/* What is written for others, a path for each. */
enum { PATHS = 6 };

/*
 * Writes the full header, that with undefined addresses, the numbers, the nulls, the hostile texts
 * and the words of the refusals.
 */
static int write_files(char **paths)
{
    uint64_t rows[NAMED * DOWRINGAF_ROW_WORDS];
    uint64_t null_rows[NULL_ROWS * DOWRINGAF_ROW_WORDS];
    struct writer w;
    struct places p;
    int written;

    write_full(&w, &p);
    written = write_file(paths[0], &w);
    write_undefined(&w, &p);
    written &= write_file(paths[1], &w);
    write_numbers(&w, rows);
    written &= write_file(paths[2], &w);
    write_nulls(&w, null_rows);
    written &= write_file(paths[3], &w);
    write_hostile(&w);
    written &= write_file(paths[4], &w);
    return write_refusals(paths[5]) && written;
}

/* With paths, also writes the files there. */
int main(int count, char **words)
{
    if (count == PATHS + 1 && !write_files(words + 1)) {
        return 2;
    }
    test_version();
    test_refusal_words();
    test_full();
    test_refused();
    test_messages();
    test_headers();
    test_fixed();
    test_block();
    test_addresses();
    test_absent_addresses();
    test_data();
    test_continuations();
    test_far_blocks();
    test_parts();
    test_listing();
    test_large_listing();
    test_largest_file();
    test_superblock();
    test_refused_superblocks();
    test_undefined_superblocks();
    test_superblock_order();
    test_root();
    test_far_roots();
    test_numbers();
    test_elements();
    test_sums();
    test_sum_order();
    test_taken();
    test_taken_in_blocks();
    test_refused_checks();
    test_most_entries();
    test_listed_rows();
    test_constant();
    test_changed();
    test_names();
    printf("%lu compared, %lu failed\n", compared, failed);
    return failed == 0 ? 0 : 1;
}
