/*
 * parser.h: PROXY protocol headers read as C programs commonly read them. For the benchmark, to measure the library against; it is
 * not part of the library.
 */
#ifndef PARSER_H
#define PARSER_H

#include <stddef.h>
#include <stdint.h>

enum parser_answer { PARSER_ACCEPTED, PARSER_MORE, PARSER_REFUSED, PARSER_WRONG_CHECKSUM };

/* Who called: 1 + 108 + 108 + 2 + 2 + 1 = 222 bytes, the bytes of the library's connection. */
struct parser_connection {
    uint8_t kind; /* 0 local, 1 unspecified, else byte 13 of version 2 */
    uint8_t source[108];
    uint8_t destination[108];
    uint8_t source_port[2]; /* in network order, as sin_port */
    uint8_t destination_port[2];
    uint8_t checksum; /* 0 absent, 1 matched */
};

struct parser_header {
    size_t length;
    size_t version;
    size_t area_start; /* the TLV area; empty, it starts at the header's end */
    size_t area_length;
    struct parser_connection connection;
};

/*
 * What the bytes received so far are. The header is filled where they are accepted, else what it holds is unspecified.
 * Bytes are refused by the time a line or block is complete, not always at the first wrong byte.
 */
enum parser_answer parser_read(const uint8_t *bytes, size_t n, struct parser_header *header);

/* The same, and the checksum of a header that is accepted is compared. */
enum parser_answer parser_read_checked(const uint8_t *bytes, size_t n, struct parser_header *header);

#endif
