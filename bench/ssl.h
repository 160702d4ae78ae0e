/*
 * ssl.h: what a TLS front end says in the value of TLV 0x20, read and written as C programs commonly do it. For the benchmark, to
 * measure the library against; it is not part of the library.
 */
#ifndef SSL_H
#define SSL_H

#include "parser.h"

/* Version, common name, cipher, signature algorithm and key algorithm: the sub-TLVs from 0x21 to 0x25. */
enum { SSL_PIECES = 5 };

/* The value of the first sub-TLV of a type; 0 and 0 where there is none. */
struct ssl_part {
    size_t start;
    size_t length;
};

struct ssl_said {
    size_t client;
    size_t verify;
    struct ssl_part parts[SSL_PIECES];
};

struct ssl_piece {
    const uint8_t *bytes;
    size_t length;
};

/* What the value says. Where it is refused, what is said is unspecified. */
enum parser_answer ssl_read(const uint8_t *value, size_t n, struct ssl_said *said);

/*
 * Writes the value, and its length; or refuses, and writes nothing. Bit i of present says that piece i, of type 0x21 + i, is there;
 * another is not looked at.
 */
enum parser_answer ssl_write(uint8_t client, uint32_t verify, unsigned present, const struct ssl_piece pieces[SSL_PIECES],
    uint8_t *out, size_t room, uint64_t *length);

#endif
