/*
 * unused.h: whether what a connection does not use is zero, for those that write or store it.
 */
#ifndef UNUSED_H
#define UNUSED_H

#include "parser.h"

static inline int all_zero(const uint8_t *p, const uint8_t *end)
{
    while (p < end)
        if (*p++ != 0)
            return 0;
    return 1;
}

/* Addresses and ports of these lengths are used. */
static inline int unused_zero(const struct parser_connection *connection, size_t address, size_t port)
{
    return all_zero(connection->source + address, connection->source + 108)
        && all_zero(connection->destination + address, connection->destination + 108)
        && all_zero(connection->source_port + port, connection->source_port + 2)
        && all_zero(connection->destination_port + port, connection->destination_port + 2);
}

#endif
