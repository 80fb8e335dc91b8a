/*
 * Why a superblock, a header or a set of names is refused, in words: those of README's table, which
 * firmware/build compares with these. firmware/test.c holds the table against dowringaf.h.
 */
#ifndef DOWRINGAF_REFUSALS_H
#define DOWRINGAF_REFUSALS_H

#include <stddef.h>

#include "dowringaf.h"

/* By the refusal's number. */
static const char *const refusal_words[] = {
    [DOWRINGAF_WIDTH] = "a width that is not 2 to 8",
    [DOWRINGAF_FILE_SIZE] = "a file above 2,147,483,648 bytes; for the listing, above 65,536",
    [DOWRINGAF_SHORT] = "a byte that is needed lies past the file's end; of a superblock, also an "
                        "undefined end-of-file or root address",
    [DOWRINGAF_SIGNATURE] = "no OHDR at the position, as in a version 1 header",
    [DOWRINGAF_VERSION] = "the header's version is not 2",
    [DOWRINGAF_HEADER_FLAGS] = "bit 4 of the header's flags",
    [DOWRINGAF_CHUNK_SIZE] = "a chunk above 16,777,216 bytes",
    [DOWRINGAF_ENTRY_FLAGS] = "an entry's flags other than 0, 1, 4 and 5: shared messages, among "
                              "others",
    [DOWRINGAF_DATASPACE] = "dataspace: version, more than 4 sizes, a size above 1,000,000, "
                            "permutation indices",
    [DOWRINGAF_LINK_INFO] = "link info: a version other than 0",
    [DOWRINGAF_DATATYPE] = "datatype: version, class, a size of 64 or more, a float that is no "
                           "IEEE single or double, a version 1 member with dimensions",
    [DOWRINGAF_FILL] = "fill value: version, allocation time, write time, or whether it is defined",
    [DOWRINGAF_LAYOUT] = "data layout: a version other than 3, an unknown class, a size of "
                         "268,435,456 or more",
    [DOWRINGAF_CHUNKED] = "chunked data layout",
    [DOWRINGAF_GROUP_INFO] = "group info: a version other than 0",
    [DOWRINGAF_FILTER_PIPELINE] = "filter pipeline: version, 32 filters or more, reserved bytes, "
                                  "more than 4,096 values",
    [DOWRINGAF_ATTRIBUTE] = "attribute: a version other than 1 and 3, a name above 4,096 bytes",
    [DOWRINGAF_ATTRIBUTE_INFO] = "attribute info: a version other than 0",
    [DOWRINGAF_CONTINUATION_RANGE] = "a continuation block outside the file as end-of-file bounds "
                                     "it, at 0, at the undefined address, or below 8 bytes",
    [DOWRINGAF_CONTINUATION_SIGNATURE] = "no OCHK where a continuation leads",
    [DOWRINGAF_BLOCK_LEVEL] = "a 26th level of continuation blocks",
    [DOWRINGAF_TYPE_LEVEL] = "a 33rd level of types in a type",
    [DOWRINGAF_ENTRIES] = "a 4,097th entry",
    [DOWRINGAF_TABLE] = "the table has too few rows: the listing lends 512; never of a check, nor "
                        "of decode, which lends as many as the check says",
    [DOWRINGAF_SUPERBLOCK_SIGNATURE] = "no HDF5 signature at the file's first byte",
    [DOWRINGAF_SUPERBLOCK_VERSION] = "a superblock of a version other than 2 and 3",
    [DOWRINGAF_BASE_ADDRESS] = "a base address other than 0",
    [DOWRINGAF_CHECKSUM] = "a checksum that is not that of its bytes: of the superblock, the "
                           "header, or a block; the file was damaged, or written by a program that "
                           "does not sum",
    [DOWRINGAF_NAMES] = "more than 32 names, or more than the answers lent; of no header and no "
                        "file",
};

enum { REFUSALS = sizeof refusal_words / sizeof refusal_words[0] };

#endif
