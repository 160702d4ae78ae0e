/*
 * stored.h: connections stored, loaded and moved as C programs commonly do it. For the benchmark, to measure the library against; it
 * is not part of the library.
 */
#ifndef STORED_H
#define STORED_H

#include "parser.h"

/* Writes version 2 of the stored form, and its length; or refuses, and writes nothing. */
enum parser_answer stored_write(const struct parser_connection *connection, uint8_t *out, size_t room, uint64_t *length);

/* Loads a form of version 2. Where it is refused, what the connection holds is unspecified. */
enum parser_answer stored_load(const uint8_t *form, size_t n, struct parser_connection *connection);

/* Writes a form of version 1 as one of version 2, and its length; or refuses, and writes nothing. */
enum parser_answer stored_forward(const uint8_t *form, size_t n, uint8_t *out, size_t room, uint64_t *length);

#endif
