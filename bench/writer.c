/* writer.c: see writer.h. */
#define _POSIX_C_SOURCE 200112L
#include "writer.h"
#include "unused.h"
#include <arpa/inet.h>
#include <stdio.h>
#include <string.h>

/* One more than the longest line, for the zero behind it. */
enum { LINE = 105 };

static unsigned port(const uint8_t *p)
{
    return p[0] * 256u + p[1];
}

enum parser_answer writer_line(const struct parser_connection *connection, uint8_t *out, size_t room, uint64_t *length)
{
    char source[INET6_ADDRSTRLEN], destination[INET6_ADDRSTRLEN], line[LINE];
    int six = connection->kind == 0x21, family = six ? AF_INET6 : AF_INET, n;
    if ((!six && connection->kind != 0x11) || connection->checksum != 0 || !unused_zero(connection, six ? 16 : 4, 2)
        || inet_ntop(family, connection->source, source, sizeof source) == NULL
        || inet_ntop(family, connection->destination, destination, sizeof destination) == NULL)
        return PARSER_REFUSED;
    n = snprintf(line, sizeof line, "PROXY TCP%d %s %s %u %u\r\n", six ? 6 : 4, source, destination, port(connection->source_port),
        port(connection->destination_port));
    if (n < 0 || (size_t)n >= sizeof line || room < (size_t)n)
        return PARSER_REFUSED;
    memcpy(out, line, (size_t)n);
    *length = (uint64_t)n;
    return PARSER_ACCEPTED;
}
