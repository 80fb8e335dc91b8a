/*
 * Prints what an object header holds, or the attributes of some names in it.
 *
 *   decode [OPTION]... FILE
 *   decode [OPTION]... FILE POSITION
 *   decode [OPTION]... FILE POSITION OFFSET_WIDTH LENGTH_WIDTH END_OF_FILE
 *   decode [OPTION]... FILE ... --find NAME...
 *
 * The first takes the root group's header and the second the header at a position, both by the
 * file's own superblock; the third is for files whose superblock is not of version 2 or 3. The
 * numbers are decimal. A line for the superblock, where it is read, one for the call, one for each
 * row, one for each record; a hyphen stands where a field is absent, `undefined` where an address
 * is, and `too many` where the elements of the dataspace are 2^64 or more. A superblock or a header
 * that is refused prints `refused,` and the refusal's number.
 *
 * In names and texts every byte outside 32 to 126, the backslash and the comma are written as \xNN,
 * so that a file can neither add a line nor a field, nor speak to the terminal. Lengths are those
 * in the file. Of data the length alone is printed, unless --data asks for the bytes, which stand
 * in the last line and as they are. With --raw names, texts and data are all written as the bytes
 * that they are, and data in the row of their layout too: that is for programs, which count.
 *
 * What a person should know stands on standard error: what was refused and why, in words; that the
 * file is shorter or longer than its superblock says, which no call compares; and that attributes
 * or links stand in a heap, which is not read.
 *
 * The exit status is 0 where the header is read, 1 where something is refused, and 2 where the
 * words are not as above, a file cannot be read, or standard output not be written.
 *
 * The line of a row ends with its part; where an attribute has a number, three fields follow:
 *
 *   unsigned,48000,0x000000000000bb80
 *   signed,-5,0xfffffffffffffffb
 *   single,1.5,0x3fc00000
 *   double,0.10000000000000001,0x3fb999999999999a
 *
 * They are what the number is, the number with as many digits as tell it from every other, and its
 * bits. Infinities and NaNs have printf's names, and of NaNs only the bits tell which.
 *
 * A header is checked first, and then as many rows are set aside as it takes. With --check it stays
 * at that, and in place of the header's lines one is printed: `checked`, the position after the
 * header, its entries and its rows.
 *
 * With --find behind what tells the header, all further words are names, which are looked up in one
 * call; of a SOFA file's root they are its global attributes. In place of the header's lines there
 * is one for each name, in the order in which they are given: the name, its row, the first being 0,
 * and what follows the name in that row's own line; or the name and a hyphen where no attribute has
 * it. More than 32 names are `refused,29`. Attributes that stand in a heap, as those of a root with
 * more than 8, are not in its header: where a name has none, and there is a heap, that is said.
 *
 *   Title,3,5,HRTFs
 *   SamplingRate,7,-,,unsigned,48000,0x000000000000bb80
 *   Comment,-
 */
#include <errno.h>
#include <stdarg.h>
#include <stdio.h>
#include <stdlib.h>
#include <string.h>

#include "dowringaf.h"
#include "refusals.h"

enum { LEAST_ROOM = 65536, DATA_LAYOUT = 8 };

/* One byte more than is decoded, so that a larger file is refused without being read whole. */
#define MOST_ROOM ((size_t)DOWRINGAF_MOST_BYTES + 1)

/* The words after the file's name, in their order. */
enum { POSITION, OFFSET_WIDTH, LENGTH_WIDTH, END_OF_FILE, NUMBERS };

/* The exit status. */
enum { READ = 0, REFUSED = 1, FAILED = 2 };

/* The options in front of the file's name, and whether they are given. */
enum { CHECK, DATA, RAW, HELP, VERSION, OPTIONS };
static const char *const options[OPTIONS] = {"--check", "--data", "--raw", "--help", "--version"};
static int given[OPTIONS];

static dowringaf_object object;

/* A file, by its name and its bytes. */
struct bytes {
    const char *path;
    uint8_t *at;
    size_t count;
};

/* The names to find, where that is asked. */
struct names {
    int asked;
    size_t count;
    char **words;
};

/* Why standard output could not be written, the first time; 0 where it could. */
static int not_written;

/* Where an earlier write failed and nothing is left to write, no reason is left either. */
static void flush(void)
{
    errno = EIO;
    if ((fflush(stdout) != 0 || ferror(stdout)) && not_written == 0) {
        not_written = errno;
    }
}

/* A line on standard error, of a file or of what else has the name; it follows what is printed. */
static void say(const char *name, const char *format, ...)
{
    va_list values;

    flush();
    fprintf(stderr, "%s: ", name);
    va_start(values, format);
    vfprintf(stderr, format, values);
    va_end(values);
    fputc('\n', stderr);
}

/* What the system says of an error. */
static int fail(const char *name, int error)
{
    say(name, "%s", strerror(error));
    return FAILED;
}

/* A number of digits alone. Yields 0 where it is none, or above 64 bits. */
static int number_of(const char *text, uint64_t *number)
{
    uint64_t value = 0;

    if (*text == '\0') {
        return 0;
    }
    for (; *text != '\0'; text++) {
        uint64_t digit;

        if (*text < '0' || '9' < *text) {
            return 0;
        }
        digit = (uint64_t)(*text - '0');
        if ((UINT64_MAX - digit) / 10 < value) {
            return 0;
        }
        value = value * 10 + digit;
    }
    *number = value;
    return 1;
}

/* Room for a file and one byte more, which stays free; where its size is not known, the least. */
static size_t first_room(FILE *stream)
{
    long size = fseek(stream, 0, SEEK_END) == 0 ? ftell(stream) : 0;

    rewind(stream);
    if (size < LEAST_ROOM) {
        return LEAST_ROOM;
    }
    return (unsigned long)size < MOST_ROOM ? (size_t)size + 1 : MOST_ROOM;
}

/*
 * A stream up to its end, or as much as fills the most room. Yields 0 where it cannot be read, and
 * leaves why in errno.
 */
static int read_stream(FILE *stream, struct bytes *file)
{
    size_t room = first_room(stream);

    for (;;) {
        uint8_t *more = realloc(file->at, room);

        if (more == NULL) {
            return 0;
        }
        file->at = more;
        file->count += fread(file->at + file->count, 1, room - file->count, stream);
        if (file->count < room || room == MOST_ROOM) {
            return !ferror(stream);
        }
        room = room < MOST_ROOM / 2 ? room * 2 : MOST_ROOM;
    }
}

/* A file, in a block of its size. Yields 0 where it cannot be read, and leaves why in errno. */
static int read_file(struct bytes *file)
{
    FILE *stream = fopen(file->path, "rb");
    int is_read;
    int reason;

    if (stream == NULL) {
        return 0;
    }
    is_read = read_stream(stream, file);
    reason = errno;
    fclose(stream);
    errno = reason;
    if (is_read && file->count != 0) {
        uint8_t *exact = realloc(file->at, file->count);

        if (exact != NULL) {
            file->at = exact;
        }
    }
    return is_read;
}

static void put_number(uint64_t number)
{
    printf(",%llu", (unsigned long long)number);
}

/* A number where there is one, a word where there is none. */
static void put_either(int is_number, uint64_t number, const char *word)
{
    if (is_number) {
        put_number(number);
    } else {
        printf(",%s", word);
    }
}

static void put_if(int present, uint64_t number)
{
    put_either(present, number, "-");
}

static void put_optional(dowringaf_optional field)
{
    put_if(field.present != 0, field.value);
}

static void put_address(dowringaf_address address)
{
    put_either(address.undefined == 0, address.number, "undefined");
}

static void put_elements(dowringaf_elements elements)
{
    put_either(elements.too_many == 0, elements.number, "too many");
}

static void put_optional_address(dowringaf_optional_address field)
{
    dowringaf_address address;

    address.undefined = field.undefined;
    address.number = field.number;
    if (field.present != 0) {
        put_address(address);
    } else {
        fputs(",-", stdout);
    }
}

/* Bytes as they are. */
static void put_raw(const uint8_t *bytes, size_t count)
{
    if (count != 0) {
        fwrite(bytes, 1, count, stdout);
    }
}

/* A name or a text: what is not plain, and what ends a field, in hexadecimal. */
static void put_text(const uint8_t *bytes, size_t count)
{
    size_t i;

    if (given[RAW]) {
        put_raw(bytes, count);
        return;
    }
    for (i = 0; i < count; i++) {
        if (bytes[i] < 32 || 126 < bytes[i] || bytes[i] == '\\' || bytes[i] == ',') {
            printf("\\x%02x", (unsigned)bytes[i]);
        } else {
            putchar(bytes[i]);
        }
    }
}

/* A length and the bytes of a part of the file, as they are put by what is given. */
static void put_part(const struct bytes *file, uint64_t position, uint64_t length,
                     void (*put_bytes)(const uint8_t *, size_t))
{
    dowringaf_part part = dowringaf_layout_data(file->at, file->count, position, length);

    put_number(length);
    putchar(',');
    if (part.length != 0) {
        put_bytes(file->at + part.position, part.length);
    }
}

/* In the place of data, which are printed in their own line alone. */
static void put_nothing(const uint8_t *bytes, size_t count)
{
    (void)bytes;
    (void)count;
}

/* An attribute's number, where the row has one. */
static void put_value(const uint64_t *row)
{
    uint64_t bits = row[DOWRINGAF_ROW_NUMBER_BITS];
    unsigned long long stored = bits;

    switch (row[DOWRINGAF_ROW_NUMBER]) {
    case DOWRINGAF_NUMBER_UNSIGNED:
        printf(",unsigned,%llu,0x%016llx", stored, stored);
        break;
    case DOWRINGAF_NUMBER_SIGNED:
        printf(",signed,%lld,0x%016llx", (long long)dowringaf_signed(bits), stored);
        break;
    case DOWRINGAF_NUMBER_SINGLE:
        printf(",single,%.9g,0x%08llx", (double)dowringaf_single(bits), stored);
        break;
    case DOWRINGAF_NUMBER_DOUBLE:
        printf(",double,%.17g,0x%016llx", dowringaf_double(bits), stored);
        break;
    }
}

/* What follows the name in a row's line: its part, and its number. */
static void put_content(const struct bytes *file, const uint64_t *row)
{
    int is_data = row[DOWRINGAF_ROW_TYPE] == DATA_LAYOUT && !given[RAW];

    if (row[DOWRINGAF_ROW_PART] != 0) {
        put_part(file, row[DOWRINGAF_ROW_PART_POSITION], row[DOWRINGAF_ROW_PART_LENGTH],
                 is_data ? put_nothing : put_text);
    } else {
        fputs(",-,", stdout);
    }
    put_value(row);
    putchar('\n');
}

static void put_row(const struct bytes *file, const uint64_t *row)
{
    printf("%llu", (unsigned long long)row[DOWRINGAF_ROW_TYPE]);
    put_number(row[DOWRINGAF_ROW_FLAGS]);
    put_number(row[DOWRINGAF_ROW_SIZE]);
    put_number(row[DOWRINGAF_ROW_BODY]);
    if (row[DOWRINGAF_ROW_NAME] != 0) {
        put_part(file, row[DOWRINGAF_ROW_NAME_POSITION], row[DOWRINGAF_ROW_NAME_LENGTH],
                 put_text);
    } else {
        fputs(",-,", stdout);
    }
    put_content(file, row);
}

static void put_dimensions(const dowringaf_dimensions *dimensions)
{
    int i;

    put_number(dimensions->count);
    for (i = 0; i < 4; i++) {
        put_number(dimensions->sizes[i]);
    }
}

static void put_dataspace(const dowringaf_dataspace *space)
{
    fputs("dataspace", stdout);
    put_number(space->dimensionality);
    put_number(space->flags);
    put_optional(space->kind);
    put_dimensions(&space->size);
    put_dimensions(&space->maximum_size);
    put_elements(space->elements);
    putchar('\n');
}

static void put_datatype(const dowringaf_datatype *type)
{
    const dowringaf_format *format = &type->format;
    int some = format->kind != DOWRINGAF_FORMAT_NONE;
    int is_float = format->kind == DOWRINGAF_FORMAT_FLOAT;

    fputs("datatype", stdout);
    put_number(type->class_and_version);
    put_number(type->class_bit_field);
    put_number(type->size);
    put_optional(type->list_size);
    put_if(some, format->bit_offset);
    put_if(some, format->bit_precision);
    put_if(is_float, format->exponent_location);
    put_if(is_float, format->exponent_size);
    put_if(is_float, format->mantissa_location);
    put_if(is_float, format->mantissa_size);
    put_if(is_float, format->exponent_bias);
    putchar('\n');
}

static void put_link_info(const dowringaf_link_info *info)
{
    fputs("link_info", stdout);
    put_number(info->flags);
    put_optional(info->maximum_creation_index);
    put_address(info->fractal_heap_address);
    put_address(info->address_btree_index);
    put_optional_address(info->address_btree_order);
    putchar('\n');
}

static void put_group_info(const dowringaf_group_info *info)
{
    fputs("group_info", stdout);
    put_number(info->flags);
    put_optional(info->maximum_compact_value);
    put_optional(info->minimum_dense_value);
    put_optional(info->number_of_entries);
    put_optional(info->length_of_entries);
    putchar('\n');
}

static void put_attribute_info(const dowringaf_attribute_info *info)
{
    fputs("attribute_info", stdout);
    put_number(info->flags);
    put_number(info->maximum_creation_index);
    put_address(info->fractal_heap_address);
    put_address(info->attribute_name_btree);
    put_address(info->attribute_creation_order_btree);
    putchar('\n');
}

static void put_layout(const struct bytes *file, const dowringaf_layout *layout)
{
    fputs("layout", stdout);
    put_optional_address(layout->address);
    fputs("\ndata", stdout);
    if (given[DATA] || given[RAW]) {
        put_part(file, layout->data.position, layout->data.length, put_raw);
    } else {
        put_number(layout->data.length);
    }
    putchar('\n');
}

/* The line of a refusal, and what was refused and why in words. */
static int refuse(const struct bytes *file, const char *what, uint64_t number)
{
    const char *words = number < REFUSALS ? refusal_words[number] : NULL;

    fputs("refused", stdout);
    put_number(number);
    putchar('\n');
    say(file->path, "%s refused, %llu: %s", what, (unsigned long long)number,
        words != NULL ? words : "not known to this program");
    return REFUSED;
}

/* The header that the numbers lead to, or without numbers the root's. */
static int refuse_header(const struct bytes *file, const uint64_t *numbers, uint64_t number)
{
    char what[40] = "root's header";

    if (numbers != NULL) {
        sprintf(what, "header at %llu", (unsigned long long)numbers[POSITION]);
    }
    return refuse(file, what, number);
}

/* What stands in a heap has no row, since none is read. */
static void tell_heap(const struct bytes *file, const char *what, const dowringaf_address *heap)
{
    if (heap->undefined == 0 && heap->number != 0) {
        say(file->path, "%s stand in a heap, at %llu, which is not read", what,
            (unsigned long long)heap->number);
    }
}

/* Whether the file is as long as its superblock says, which nothing else compares. */
static void compare_end(const struct bytes *file, uint64_t end)
{
    if (file->count != end) {
        say(file->path, "%s: it has %llu bytes, and its superblock says %llu",
            file->count < end ? "the file is cut" : "the file is longer than it says",
            (unsigned long long)file->count, (unsigned long long)end);
    }
}

static void put_superblock(const dowringaf_superblock *block)
{
    fputs("superblock", stdout);
    put_number(block->size_of_offsets);
    put_number(block->size_of_lengths);
    put_number(block->base_address);
    put_address(block->superblock_extension_address);
    put_number(block->end_of_file_address);
    put_number(block->root_group_object_header_address);
    putchar('\n');
}

/* The three figures that the check and the filling have in common. */
static void put_figures(const char *name, uint64_t next, uint64_t entries, uint64_t rows)
{
    fputs(name, stdout);
    put_number(next);
    put_number(entries);
    put_number(rows);
    putchar('\n');
}

static void put_object(const struct bytes *file, const uint64_t *table)
{
    uint64_t i;

    put_figures("read", object.next, object.entries, object.rows);
    for (i = 0; i < object.rows; i++) {
        put_row(file, table + i * DOWRINGAF_ROW_WORDS);
    }
    put_dataspace(&object.dataspace);
    put_datatype(&object.datatype);
    put_link_info(&object.link_info);
    put_group_info(&object.group_info);
    put_attribute_info(&object.attribute_info);
    put_layout(file, &object.layout);
    tell_heap(file, "attributes", &object.attribute_info.fractal_heap_address);
    tell_heap(file, "links", &object.link_info.fractal_heap_address);
}

/* What the numbers lead to, or without numbers the root's header. */
static dowringaf_checked check(const struct bytes *file, const uint64_t *numbers)
{
    if (numbers == NULL) {
        return dowringaf_check_root_object(file->at, file->count);
    }
    return dowringaf_check_data_object(file->at, file->count, numbers[POSITION],
                                       numbers[OFFSET_WIDTH], numbers[LENGTH_WIDTH],
                                       numbers[END_OF_FILE]);
}

/* The same header, into a table. */
static void fill(const struct bytes *file, const uint64_t *numbers, uint64_t *table, size_t words)
{
    if (numbers == NULL) {
        dowringaf_root_object(file->at, file->count, table, words, &object);
    } else {
        dowringaf_data_object(file->at, file->count, numbers[POSITION], numbers[OFFSET_WIDTH],
                              numbers[LENGTH_WIDTH], numbers[END_OF_FILE], table, words,
                              &object);
    }
}

/* A line for each name, whose row plus 1 is given; 0 where it has none. */
static void put_found(const struct bytes *file, const uint64_t *table, const struct names *names,
                      const uint64_t *answers)
{
    size_t missing = 0;
    size_t i;

    for (i = 0; i < names->count; i++) {
        put_text((const uint8_t *)names->words[i], strlen(names->words[i]));
        if (answers[i] == 0) {
            fputs(",-\n", stdout);
            missing++;
        } else {
            put_number(answers[i] - 1);
            put_content(file, table + (answers[i] - 1) * DOWRINGAF_ROW_WORDS);
        }
    }
    if (missing != 0) {
        tell_heap(file, "attributes", &object.attribute_info.fractal_heap_address);
    }
}

/* The names one after another, and their places; yields the length of it all. */
static size_t lay_out(const struct names *names, uint8_t *text, uint64_t *places)
{
    size_t bytes = 0;
    size_t i;

    for (i = 0; i < names->count; i++) {
        size_t length = strlen(names->words[i]);

        if (text != NULL) {
            memcpy(text + bytes, names->words[i], length);
            places[2 * i] = bytes;
            places[2 * i + 1] = length;
        }
        bytes += length;
    }
    return bytes;
}

/* Looks the names up, all in one call. */
static int find(const struct bytes *file, const uint64_t *table, const struct names *names)
{
    uint8_t *text = malloc(lay_out(names, NULL, NULL) + 1);
    uint64_t *places = calloc(names->count, 2 * sizeof *places);
    uint64_t *answers = calloc(names->count, sizeof *answers);
    int status = READ;

    if (text == NULL || places == NULL || answers == NULL) {
        status = fail("memory for the names", ENOMEM);
    } else {
        size_t bytes = lay_out(names, text, places);
        uint64_t refused = dowringaf_lookup_names(
            file->at, file->count, table, object.rows * DOWRINGAF_ROW_WORDS, object.rows, text,
            bytes, places, 2 * names->count, answers, names->count);

        if (refused != 0) {
            status = refuse(file, "names", refused);
        } else {
            put_found(file, table, names, answers);
        }
    }
    free(answers);
    free(places);
    free(text);
    return status;
}

/* What is asked of a header that is decoded. */
static int put_asked(const struct bytes *file, const uint64_t *numbers, const uint64_t *table,
                     const struct names *names)
{
    if (object.refused != 0) {
        return refuse_header(file, numbers, object.refused);
    }
    if (names->asked) {
        return find(file, table, names);
    }
    put_object(file, table);
    return READ;
}

/* A header in a table of as many rows as it takes. */
static int decode_rows(const struct bytes *file, const uint64_t *numbers, size_t rows,
                       const struct names *names)
{
    uint64_t *table = calloc(rows, DOWRINGAF_ROW_WORDS * sizeof *table);
    int status;

    if (table == NULL && rows != 0) {
        return fail("memory for the table", ENOMEM);
    }
    fill(file, numbers, table, rows * DOWRINGAF_ROW_WORDS);
    status = put_asked(file, numbers, table, names);
    free(table);
    return status;
}

/* What is asked of a header. */
static int decode(const struct bytes *file, const uint64_t *numbers, const struct names *names)
{
    dowringaf_checked checked = check(file, numbers);

    if (checked.refused != 0) {
        return refuse_header(file, numbers, checked.refused);
    }
    if (given[CHECK]) {
        put_figures("checked", checked.next, checked.entries, checked.rows);
        return READ;
    }
    return decode_rows(file, numbers, checked.rows, names);
}

/* The root's header, or with a number the one at that position. */
static int decode_by_superblock(const struct bytes *file, uint64_t *numbers, int count,
                                const struct names *names)
{
    dowringaf_superblock block = dowringaf_super_block(file->at, file->count);
    int status;

    if (block.refused != 0) {
        return refuse(file, "superblock", block.refused);
    }
    put_superblock(&block);
    numbers[OFFSET_WIDTH] = block.size_of_offsets;
    numbers[LENGTH_WIDTH] = block.size_of_lengths;
    numbers[END_OF_FILE] = block.end_of_file_address;
    status = decode(file, count == 0 ? NULL : numbers, names);
    compare_end(file, block.end_of_file_address);
    return status;
}

/* Reads and decodes a file. */
static int decode_file(const char *path, uint64_t *numbers, int count, const struct names *names)
{
    struct bytes file = {path, NULL, 0};
    int status;

    if (!read_file(&file)) {
        status = fail(path, errno);
    } else if (count == NUMBERS) {
        status = decode(&file, numbers, names);
    } else {
        status = decode_by_superblock(&file, numbers, count, names);
    }
    free(file.at);
    return status;
}

static const char usage[] =
    "decode [OPTION]... FILE [POSITION [OFFSET_WIDTH LENGTH_WIDTH END_OF_FILE]] [--find NAME...]\n";

static int refuse_words(void)
{
    fputs(usage, stderr);
    fputs("decode --help tells more\n", stderr);
    return FAILED;
}

static void put_help(void)
{
    fputs(usage, stdout);
    fputs("\n"
          "Prints what an object header of an HDF5 file holds: that of the file's root, or the\n"
          "one at a position.\n"
          "\n"
          "  --check     tell how much the header holds, without decoding it\n"
          "  --data      print the data too, as the bytes that they are\n"
          "  --raw       print names, texts and data as the bytes that they are, for programs\n"
          "  --help      print this\n"
          "  --version   print the version\n"
          "  --          end the options: what follows is the file\n"
          "  --find      behind the file: look these attributes up, at most 32\n"
          "\n"
          "The exit status is 0 where the header is read, 1 where something is refused, and 2 for\n"
          "wrong words and errors of the system. What is refused and why, that the file is cut,\n"
          "and that attributes or links stand in a heap, is said on standard error. README.md has\n"
          "the lines and figures, the refusals, and what to do.\n",
          stdout);
}

/*
 * The words after the file's name as numbers. Yields how many they are, or -1 where the words are
 * not as above.
 */
static int numbers_of(int count, char **words, uint64_t *numbers)
{
    int i;

    if (count != 0 && count != 1 && count != NUMBERS) {
        refuse_words();
        return -1;
    }
    for (i = 0; i < count; i++) {
        if (!number_of(words[i], &numbers[i])) {
            say(words[i], words[i][0] == '-' ? "options stand before the file" : "not a number");
            return -1;
        }
    }
    return count;
}

static int take_option(const char *word)
{
    int i;

    for (i = 0; i < OPTIONS; i++) {
        if (strcmp(word, options[i]) == 0) {
            given[i] = 1;
            return 1;
        }
    }
    say(word, "not an option");
    return 0;
}

/*
 * Takes the options in front of the file's name. Yields the place of the word behind them, or 0
 * where one is not known.
 */
static int take_options(int count, char **words)
{
    int i;

    for (i = 1; i < count && words[i][0] == '-' && words[i][1] != '\0'; i++) {
        if (strcmp(words[i], "--") == 0) {
            return i + 1;
        }
        if (!take_option(words[i])) {
            return 0;
        }
    }
    return i;
}

/*
 * Takes the names off the words behind the file's name: those behind the first --find. Yields how
 * many words are left.
 */
static int take_names(int count, char **words, struct names *names)
{
    int i;

    for (i = 0; i < count; i++) {
        if (strcmp(words[i], "--find") == 0) {
            names->asked = 1;
            names->count = (size_t)(count - i - 1);
            names->words = words + i + 1;
            return i;
        }
    }
    return count;
}

/* The file and what stands behind it. */
static int run(int count, char **words)
{
    uint64_t numbers[NUMBERS];
    struct names names = {0, 0, NULL};
    int left;

    if (count < 1) {
        return refuse_words();
    }
    left = take_names(count - 1, words + 1, &names);
    if (names.asked && (names.count == 0 || given[CHECK])) {
        return refuse_words();
    }
    left = numbers_of(left, words + 1, numbers);
    return left < 0 ? FAILED : decode_file(words[0], numbers, left, &names);
}

/* What the options ask for. */
static int answer(int count, char **words)
{
    int at = take_options(count, words);

    if (at == 0) {
        return refuse_words();
    }
    if (given[HELP]) {
        put_help();
        return READ;
    }
    if (given[VERSION]) {
        printf("decode (Dowringaf) %d\n", DOWRINGAF_LIBRARY_VERSION);
        return READ;
    }
    return run(count - at, words + at);
}

int main(int count, char **words)
{
    int status;

    if (dowringaf_version() != DOWRINGAF_LIBRARY_VERSION) {
        say("decode", "dowringaf.h and the library are of different versions");
        return FAILED;
    }
    status = answer(count, words);
    flush();
    return not_written != 0 ? fail("standard output", not_written) : status;
}
