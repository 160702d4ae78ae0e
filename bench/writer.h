/*
 * writer.h: version 1 lines written as C programs commonly do it. For the benchmark, to measure the library against; it is not part of
 * the library.
 */
#ifndef WRITER_H
#define WRITER_H

#include "parser.h"

/* Writes the line of an IPv4 or IPv6 stream, and its length; or refuses, and writes nothing. */
enum parser_answer writer_line(const struct parser_connection *connection, uint8_t *out, size_t room, uint64_t *length);

#endif
