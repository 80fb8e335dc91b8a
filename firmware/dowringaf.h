/*
 * Reading superblocks and object headers of HDF5 files from C, through libfirmware.a, which
 * firmware/install installs as libdowringaf.a.
 *
 * It is for x86-64 alone, called as the System V ABI says. It needs SSE2, whose registers it uses,
 * and a red zone, in which it keeps values: nothing else may write to the 128 bytes below the stack
 * pointer. So it must not run on a stack that interrupts use too, as on bare hardware or in a
 * kernel, unless they leave these bytes alone. An operating system's signals do.
 *
 * The functions are proved for every input, in crates/firmware. Of them all:
 *
 *   - they always return, and allocate nothing;
 *   - they keep no state between calls, and call nothing but memset and memcpy; so threads may call
 *     them at the same time, each with a table, an object, answers or out of its own;
 *   - they read nothing beyond the elements that they are given;
 *   - they write nothing but the table and the object, or the answers, or out.
 *
 * The proofs rest on what the caller guarantees. Nothing of it is tested:
 *
 *   - a pointer with a count points to that many initialised elements, aligned; with a count of 0
 *     it may be NULL; out points to DOWRINGAF_LISTING of them, and the object is initialised too;
 *   - what a call writes (the table and the object, the answers, or out) overlaps nothing else that
 *     it is given;
 *   - no other thread, and no interrupt, device or process that shares the memory, writes to what
 *     is given, or reads what the call writes, during the call: a file that is mapped must not be
 *     changed or cut by another program;
 *   - the stack has room. The proofs say nothing of it: DOWRINGAF_DECODING_STACK and
 *     DOWRINGAF_LISTING_STACK are bounds on what was measured at the deepest (firmware/stack.c),
 *     with room for what is to come; the five functions that neither is for use less than the
 *     first.
 *
 * No function compares the file's length with what the superblock says of it. A file that was cut
 * behind its root's header is read like a whole one. A caller compares the two by itself, as
 * firmware/example.c does: end_of_file_address of dowringaf_super_block is the number of bytes that
 * the whole file has.
 *
 * Time is not proved either. For one entry of a header the file is read forwards, up to its end at
 * most, and the checksums are of little more than the bytes that entries pass; so a call takes at
 * most in proportion to the entries times the bytes of the file. There are at most 4,096 entries.
 * A check reads as many; a filling with r rows lent stops after r + 1 messages. Attributes whose
 * types fail at the file's last byte reach this: 4,096 of them took 0.3 s in 65,536 bytes, 3 s in
 * 1,048,576 and up to 157 s in 16,777,216 (docs/DECISIONS.md, "The time of a call"). Blocks of
 * nearly a whole file, opened as often as entries allow, took 0.1 s, 0.7 s and 10 s for their
 * checksums in files of about these sizes. These times are those of an older compiler of the
 * library. Where an answer is due within a time, bound file_bytes, or for a filling without a check
 * table_words.
 *
 * Every struct below is made of 64-bit words, without padding.
 */
#ifndef DOWRINGAF_H
#define DOWRINGAF_H

#include <stddef.h>
#include <stdint.h>
#ifndef DOWRINGAF_NO_INLINE
#include <string.h>
#endif

#ifdef __cplusplus
extern "C" {
#endif

/*
 * The version of what is declared here: one more with every change of it, be it a word of a struct,
 * a function, a refusal or what one of them means. A caller compares it with what the library
 * answers, and goes on only where the two are equal: the linker does not see that a struct has
 * grown.
 */
#define DOWRINGAF_LIBRARY_VERSION 1
uint64_t dowringaf_version(void);

/* The words of an object, of which a library of another version would write more or fewer. */
#define DOWRINGAF_OBJECT_WORDS 65

/* The bytes of the largest file. */
#define DOWRINGAF_MOST_BYTES 2147483648u

/* The most entries that a header has, and so the most rows. */
#define DOWRINGAF_MOST_ENTRIES 4096

/*
 * Bytes of stack that dowringaf_data_object, dowringaf_root_object and the two checks stay below,
 * and those that dowringaf_list does.
 */
#define DOWRINGAF_DECODING_STACK 32768
#define DOWRINGAF_LISTING_STACK 86016

/* Why a superblock, a header or a lookup is refused; 0 where it is not. */
enum dowringaf_refusal {
    DOWRINGAF_WIDTH = 1,                   /* a width that is not 2 to 8 */
    DOWRINGAF_FILE_SIZE = 2,               /* a file above 2,147,483,648 bytes; for the listing, above 65,536 */
    DOWRINGAF_SHORT = 3,                   /* a needed byte lies past the file; of a superblock, also an undefined end-of-file or root address */
    DOWRINGAF_SIGNATURE = 4,               /* not OHDR */
    DOWRINGAF_VERSION = 5,                 /* the header's version */
    DOWRINGAF_HEADER_FLAGS = 6,            /* bit 4 of the header's flags */
    DOWRINGAF_CHUNK_SIZE = 7,              /* a chunk above 16,777,216 bytes */
    DOWRINGAF_ENTRY_FLAGS = 8,             /* an entry's flags */
    DOWRINGAF_DATASPACE = 9,               /* a dataspace */
    DOWRINGAF_LINK_INFO = 10,              /* a link info */
    DOWRINGAF_DATATYPE = 11,               /* a datatype */
    DOWRINGAF_FILL = 12,                   /* a fill value */
    DOWRINGAF_LAYOUT = 13,                 /* a data layout */
    DOWRINGAF_CHUNKED = 14,                /* a chunked data layout */
    DOWRINGAF_GROUP_INFO = 15,             /* a group info */
    DOWRINGAF_FILTER_PIPELINE = 16,        /* a filter pipeline */
    DOWRINGAF_ATTRIBUTE = 17,              /* an attribute */
    DOWRINGAF_ATTRIBUTE_INFO = 18,         /* an attribute info */
    DOWRINGAF_CONTINUATION_RANGE = 19,     /* where a continuation block lies; an undefined offset */
    DOWRINGAF_CONTINUATION_SIGNATURE = 20, /* not OCHK */
    DOWRINGAF_BLOCK_LEVEL = 21,            /* a 26th level of blocks */
    DOWRINGAF_TYPE_LEVEL = 22,             /* a 33rd level of types */
    DOWRINGAF_ENTRIES = 23,                /* a 4,097th entry */
    DOWRINGAF_TABLE = 24,                  /* a table with too few rows */
    DOWRINGAF_SUPERBLOCK_SIGNATURE = 25,   /* no HDF5 format signature at byte 0 */
    DOWRINGAF_SUPERBLOCK_VERSION = 26,     /* a superblock of a version other than 2 and 3 */
    DOWRINGAF_BASE_ADDRESS = 27,           /* a base address other than 0 */
    DOWRINGAF_CHECKSUM = 28,               /* a checksum that is not that of its bytes */
    DOWRINGAF_NAMES = 29                   /* more than 32 names, or more than the answers lent */
};

/*
 * The words of a row of the table. Row i begins at word i * DOWRINGAF_ROW_WORDS. Positions count
 * from the file's first byte. A name or a part that the row lacks is 0 in all its words. A text may
 * be empty, which is a part of length 0: so is one of a size above 0 in a null dataspace.
 */
enum dowringaf_row {
    DOWRINGAF_ROW_TYPE = 0,          /* the message's type */
    DOWRINGAF_ROW_FLAGS = 1,         /* the entry's flags: 0, 1, 4 or 5 */
    DOWRINGAF_ROW_SIZE = 2,          /* the size that the entry gives */
    DOWRINGAF_ROW_BODY = 3,          /* where its body begins */
    DOWRINGAF_ROW_NAME = 4,          /* 1 with an attribute's name, 0 without */
    DOWRINGAF_ROW_NAME_POSITION = 5,
    DOWRINGAF_ROW_NAME_LENGTH = 6,
    DOWRINGAF_ROW_PART = 7,          /* 1 with an attribute's text or a layout's data, 0 without */
    DOWRINGAF_ROW_PART_POSITION = 8,
    DOWRINGAF_ROW_PART_LENGTH = 9,
    DOWRINGAF_ROW_NUMBER = 10,       /* an attribute's number: an enum dowringaf_number */
    DOWRINGAF_ROW_NUMBER_BITS = 11,  /* its bits */
    DOWRINGAF_ROW_WORDS = 12
};

/*
 * Which number a row has. An attribute has one where it has exactly one element, which lies in the
 * file, of a type that is
 *
 *   - fixed point of 1, 2, 4 or 8 bytes, with bit offset 0 and all its bits as precision: a whole
 *     number, with sign where class bit 3 is set; or
 *   - an IEEE single of 4 bytes or double of 8, where class bit 6 is 0, bits 4 and 5 read 2, and
 *     bits 8 to 15 name the top bit, which is 31 or 63.
 *
 * Class bit 0 says whether the highest byte stands first; all other class bits may be any. A space
 * has one element where it has no sizes or all of them are 1, unless it is a null one, which has
 * none. A row with a number has no part. Every other row has DOWRINGAF_NUMBER_NONE, and bits of 0.
 */
enum dowringaf_number {
    DOWRINGAF_NUMBER_NONE = 0,
    DOWRINGAF_NUMBER_UNSIGNED = 1, /* a whole number without sign: the bits are the number */
    DOWRINGAF_NUMBER_SIGNED = 2,   /* one with sign, negative or not: two's complement in 64 bits */
    DOWRINGAF_NUMBER_SINGLE = 3,   /* the stored bits, in the lower half; the upper half is 0 */
    DOWRINGAF_NUMBER_DOUBLE = 4    /* the stored bits */
};

/*
 * What the bits of a row stand for, in C's own types; without sign they are the number. Bits are
 * copied and no value is converted, so that a signalling NaN stays one as far as C allows: what is
 * done with a float may alter its bits, and those in the row are as they were stored. The three are
 * no functions of the library, and not proved. They want <string.h>; where there is none, define
 * DOWRINGAF_NO_INLINE before this file, and they are left out.
 */
#ifndef DOWRINGAF_NO_INLINE
static inline int64_t dowringaf_signed(uint64_t bits)
{
    int64_t number;

    memcpy(&number, &bits, sizeof number);
    return number;
}

static inline float dowringaf_single(uint64_t bits)
{
    uint32_t half = (uint32_t)bits;
    float number;

    memcpy(&number, &half, sizeof number);
    return number;
}

static inline double dowringaf_double(uint64_t bits)
{
    double number;

    memcpy(&number, &bits, sizeof number);
    return number;
}
#endif

/* A field that may be absent: present is 1, or it is 0 and so is the value. */
typedef struct dowringaf_optional {
    uint64_t present;
    uint64_t value;
} dowringaf_optional;

/*
 * An address as the file has it, a number or undefined. All ones in the width of offsets are
 * undefined: undefined is 1, and the number 0. Otherwise undefined is 0.
 */
typedef struct dowringaf_address {
    uint64_t undefined;
    uint64_t number;
} dowringaf_address;

/* An address that may be absent: present is 1, or all three words are 0. */
typedef struct dowringaf_optional_address {
    uint64_t present;
    uint64_t undefined;
    uint64_t number;
} dowringaf_optional_address;

/* The first count of the sizes, and then zeros. */
typedef struct dowringaf_dimensions {
    uint64_t count;
    uint64_t sizes[4];
} dowringaf_dimensions;

/*
 * How many elements there are, exactly. From 2^64 on they are too many for a word: too_many is 1,
 * and the number 0. Otherwise too_many is 0.
 */
typedef struct dowringaf_elements {
    uint64_t too_many;
    uint64_t number;
} dowringaf_elements;

/*
 * The elements are the product of the sizes, and one where there are no sizes; the maximum sizes
 * play no part. A null dataspace is one whose kind is present and 2; version 1 of the message has
 * no kind. It has no elements, also where it has sizes. No other kind plays a part.
 */
typedef struct dowringaf_dataspace {
    uint64_t dimensionality;
    uint64_t flags;
    dowringaf_optional kind;
    dowringaf_dimensions size;
    dowringaf_dimensions maximum_size;
    dowringaf_elements elements;
} dowringaf_dataspace;

/* The kind of a format. */
enum dowringaf_format_kind {
    DOWRINGAF_FORMAT_NONE = 0,  /* every other word is 0 */
    DOWRINGAF_FORMAT_FIXED = 1, /* bit offset and precision; the other words are 0 */
    DOWRINGAF_FORMAT_FLOAT = 2
};

/* How the bits of a number stand in its bytes. */
typedef struct dowringaf_format {
    uint64_t kind;
    uint64_t bit_offset;
    uint64_t bit_precision;
    uint64_t exponent_location;
    uint64_t exponent_size;
    uint64_t mantissa_location;
    uint64_t mantissa_size;
    uint64_t exponent_bias;
} dowringaf_format;

typedef struct dowringaf_datatype {
    uint64_t class_and_version;
    uint64_t class_bit_field;
    uint64_t size;
    dowringaf_optional list_size;
    dowringaf_format format;
} dowringaf_datatype;

typedef struct dowringaf_link_info {
    uint64_t flags;
    dowringaf_optional maximum_creation_index;
    dowringaf_address fractal_heap_address;
    dowringaf_address address_btree_index;
    dowringaf_optional_address address_btree_order;
} dowringaf_link_info;

typedef struct dowringaf_group_info {
    uint64_t flags;
    dowringaf_optional maximum_compact_value;
    dowringaf_optional minimum_dense_value;
    dowringaf_optional number_of_entries;
    dowringaf_optional length_of_entries;
} dowringaf_group_info;

/* A creation index or an address that the message does not have is 0, and not undefined. */
typedef struct dowringaf_attribute_info {
    uint64_t flags;
    uint64_t maximum_creation_index;
    dowringaf_address fractal_heap_address;
    dowringaf_address attribute_name_btree;
    dowringaf_address attribute_creation_order_btree;
} dowringaf_attribute_info;

/* Bytes of the file, from a position on. */
typedef struct dowringaf_part {
    uint64_t position;
    uint64_t length;
} dowringaf_part;

/*
 * Where the data of a dataset lie. The address is that of contiguous data, as it is given, also
 * where the part is empty, which is 0 and 0: where the address is undefined, 0, or not below the
 * end-of-file address, and where the size is 0. Compact data have no address, and an empty part.
 */
typedef struct dowringaf_layout {
    dowringaf_optional_address address;
    dowringaf_part data; /* for dowringaf_layout_data */
} dowringaf_layout;

/*
 * An object header. Of each record the header's last message wins. Where there is none, the words
 * of the record are 0, and so no address of it is undefined; but the number of elements is 1, as in
 * every dataspace without sizes that is not a null one. Where the header is refused, all records
 * are so, and of the other words every one but the first is 0.
 */
typedef struct dowringaf_object {
    uint64_t refused; /* 0, or an enum dowringaf_refusal */
    uint64_t next;    /* the position after the header */
    uint64_t entries; /* the entries read, continuations among them */
    uint64_t rows;    /* the rows of the table that are filled, one for each message */
    dowringaf_dataspace dataspace;
    dowringaf_datatype datatype;
    dowringaf_link_info link_info;
    dowringaf_group_info group_info;
    dowringaf_attribute_info attribute_info;
    dowringaf_layout layout;
} dowringaf_object;

/*
 * What a header holds, told without a table. Where it is refused, every word but the first is 0. A
 * table for it has at least rows * DOWRINGAF_ROW_WORDS words; rows are at most 4,096.
 */
typedef struct dowringaf_checked {
    uint64_t refused; /* 0, or an enum dowringaf_refusal, never DOWRINGAF_TABLE */
    uint64_t next;    /* the position after the header */
    uint64_t entries; /* the entries read, continuations among them */
    uint64_t rows;    /* the rows that its messages take, one for each */
} dowringaf_checked;

/* A lookup. Where it is refused or nothing is found, every word but the first is 0. */
typedef struct dowringaf_found {
    uint64_t refused; /* 0, or DOWRINGAF_TABLE */
    uint64_t found;   /* 1 or 0 */
    uint64_t row;     /* the row found, the first row being 0 */
} dowringaf_found;

/*
 * A superblock, each number as it stands in the file. Where it is refused, every word but the first
 * is 0. Sizes are in bytes.
 */
typedef struct dowringaf_superblock {
    uint64_t refused; /* 0, or an enum dowringaf_refusal */
    uint64_t size_of_offsets;
    uint64_t size_of_lengths;
    uint64_t base_address; /* 0, since any other is refused */
    dowringaf_address superblock_extension_address; /* undefined where there is no extension */
    uint64_t end_of_file_address; /* a number, since an undefined one is refused */
    uint64_t root_group_object_header_address; /* likewise */
} dowringaf_superblock;

/*
 * Decodes the object header at a position of a file into a table of table_words words: a row of
 * DOWRINGAF_ROW_WORDS words for each message, in the header's order, then zeros. A header that is
 * refused leaves the whole table zero. Writes every word of the object. What stood in the table and
 * the object before makes no difference. Widths are in bytes. The position and end_of_file are
 * numbers, whatever they are; only an address that is read from the file may be undefined.
 *
 * The header and every block that it leads to must close with the standard's checksum of their
 * bytes (Jenkins' lookup3 with an initial value of 0), or the header is refused with
 * DOWRINGAF_CHECKSUM. Each is tested when all else of it is passed, so that whatever else is wrong
 * there has its own number. No superblock is read.
 */
void dowringaf_data_object(const uint8_t *file, size_t file_bytes, uint64_t position,
                           uint64_t offset_width, uint64_t length_width, uint64_t end_of_file,
                           uint64_t *table, size_t table_words, dowringaf_object *object);

/*
 * Checks the object header at a position of a file, as dowringaf_data_object reads it, without a
 * table. Accepts exactly the headers that dowringaf_data_object accepts with rows enough, 4,096 at
 * most, and refuses every other with the number that it then has; so never with DOWRINGAF_TABLE.
 * Reads no byte of the file that is not read for filling.
 *
 * For the same bytes, position, widths and end_of_file, and for any table:
 *
 *   - a header that passes the check is turned back by dowringaf_data_object only with
 *     DOWRINGAF_TABLE, exactly when table_words / DOWRINGAF_ROW_WORDS is less than rows; otherwise
 *     next, entries and rows are the same;
 *   - a header that the check refuses is refused by dowringaf_data_object with the same number, or
 *     with DOWRINGAF_TABLE where the table was full before.
 *
 * So a caller can ask for the rows, set a table aside and fill it, as firmware/example.c does. That
 * helps only where the file is the same bytes in both calls. Nothing of the check is believed:
 * dowringaf_data_object tests everything by itself, whatever was checked before.
 */
dowringaf_checked dowringaf_check_data_object(const uint8_t *file, size_t file_bytes,
                                              uint64_t position, uint64_t offset_width,
                                              uint64_t length_width, uint64_t end_of_file);

/*
 * Finds the first attribute among the first rows of a table whose name in the file is the wanted
 * one. The table may be any: a row whose name leaves the file matches nothing. More rows than the
 * table has are refused with DOWRINGAF_TABLE.
 */
dowringaf_found dowringaf_lookup(const uint8_t *file, size_t file_bytes, const uint64_t *table,
                                 size_t table_words, size_t rows, const uint8_t *name,
                                 size_t name_bytes);

/* The most names of a set. */
#define DOWRINGAF_MOST_NAMES 32

/*
 * Looks many names up in one call. The names are parts of a text that the caller lends, and have
 * two words each: the position in the text, and the length. An odd last word is no name. They may
 * overlap, and a name may occur more than once.
 *
 * Each name has an answer, in the names' order: 1 more than the row that dowringaf_lookup finds for
 * its bytes, so that the first row is 1, or 0 where it finds none. A name that leaves the text has
 * 0 too: one whose position plus length, as a true sum, is more than text_bytes. An empty name at
 * the text's very end does not leave it. The answers behind those of the names are 0. What stood in
 * the answers before makes no difference. The rows are passed once for each name, up to the one
 * that is found.
 *
 * Yields 0, or why all answers are 0: DOWRINGAF_NAMES where there are more names than
 * DOWRINGAF_MOST_NAMES or than answers, and then DOWRINGAF_TABLE for more rows than the table has,
 * be there names or not.
 */
uint64_t dowringaf_lookup_names(const uint8_t *file, size_t file_bytes, const uint64_t *table,
                                size_t table_words, size_t rows, const uint8_t *text,
                                size_t text_bytes, const uint64_t *names, size_t name_words,
                                uint64_t *answers, size_t answer_words);

/*
 * The part at a position where it lies in the file, 0 and 0 where it leaves it. In either case the
 * answer lies in the file, so that its bytes are file + position, length of them. No byte of the
 * file is read.
 */
dowringaf_part dowringaf_layout_data(const uint8_t *file, size_t file_bytes, size_t position,
                                     size_t length);

/*
 * Reads the superblock at byte 0 of a file: signature, version, sizes of offsets and of lengths,
 * flags, the four addresses in the struct's order, checksum. After the file's size, the first of
 * them counts that leaves the file, which is DOWRINGAF_SHORT, or that is not as it must be, which
 * has its own number. The base address must be 0; an end-of-file or root address that is undefined
 * is DOWRINGAF_SHORT, as one that is not there; the extension's may be undefined. The checksum must
 * be that of all bytes before it; the flags may be any. No address is compared with file_bytes.
 */
dowringaf_superblock dowringaf_super_block(const uint8_t *file, size_t file_bytes);

/*
 * Decodes the root group's object header: exactly as dowringaf_data_object does with the position,
 * the widths and the end-of-file address that dowringaf_super_block gives. Where the superblock is
 * refused, the object has its number, all else of it is as where a header is refused, and the whole
 * table is zero.
 */
void dowringaf_root_object(const uint8_t *file, size_t file_bytes, uint64_t *table,
                           size_t table_words, dowringaf_object *object);

/*
 * Checks the root group's object header: exactly as dowringaf_check_data_object does with the
 * position, the widths and the end-of-file address that dowringaf_super_block gives. Where the
 * superblock is refused, the answer has its number. What holds of dowringaf_check_data_object and
 * dowringaf_data_object holds of this and dowringaf_root_object.
 */
dowringaf_checked dowringaf_check_root_object(const uint8_t *file, size_t file_bytes);

/* The bytes that dowringaf_list is lent. */
#define DOWRINGAF_LISTING 98304

/*
 * Writes the listing of a file of at most 65,536 bytes at the start of out, and yields its length.
 * What is listed is the root group's object header: it is checked as by dowringaf_check_root_object
 * and, where it passes, decoded as by dowringaf_root_object with 512 rows lent. So DOWRINGAF_TABLE
 * is listed only of a header with more than 512 rows in which nothing else is wrong. The listing
 * has a line for each row, without its number, and a last line, or `refused,` and the refusal's
 * number. The bytes of out after it are left as they were.
 */
size_t dowringaf_list(const uint8_t *file, size_t file_bytes, uint8_t out[DOWRINGAF_LISTING]);

#ifdef __cplusplus
}
#endif

#endif
