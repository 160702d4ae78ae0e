/*
 * admit.h: headers held to a profile, and callers given a level by a table of prefixes, as C programs commonly do it. For the
 * benchmark, to measure the library against; it is not part of the library.
 */
#ifndef ADMIT_H
#define ADMIT_H

#include "parser.h"

struct admitted {
    size_t level;
    size_t length;   /* the header's */
    size_t id_start; /* the value of the 0x05 TLV in the bytes; 0 and 0 for local */
    size_t id_length;
};

/*
 * Whether the bytes received so far begin with a header that is admitted. The table is checked in each call. The caller is filled
 * where the answer is accepted, else what it holds is unspecified.
 */
enum parser_answer admit(const uint8_t *table, size_t size, const uint8_t *bytes, size_t n, struct admitted *caller);

#endif
