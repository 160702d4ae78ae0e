/* stored.c: see stored.h. */
#include "stored.h"
#include "unused.h"
#include <string.h>

enum { HEAD_V1 = 6, HEAD_V2 = 7, NO_KIND = 255 };

static const uint8_t mark_v1[5] = {'C', 'S', 'R', 0, 1};
static const uint8_t mark_v2[5] = {'C', 'S', 'R', 0, 2};

/* The length of an address; 0 where the kind has none. */
static size_t address_length(uint8_t kind)
{
    switch (kind) {
    case 0x00: case 0x01: return 0;
    case 0x11: case 0x12: return 4;
    case 0x21: case 0x22: return 16;
    case 0x31: case 0x32: return 108;
    default: return NO_KIND;
    }
}

/* Local, unspecified and UNIX have no ports. */
static size_t port_length(size_t address)
{
    return address == 4 || address == 16 ? 2 : 0;
}

enum parser_answer stored_write(const struct parser_connection *connection, uint8_t *out, size_t room, uint64_t *length)
{
    size_t address = address_length(connection->kind), port = port_length(address), n = HEAD_V2 + 2 * (address + port);
    if (address == NO_KIND || connection->checksum > (address > 0) || room < n || !unused_zero(connection, address, port))
        return PARSER_REFUSED;
    memcpy(out, mark_v2, sizeof mark_v2);
    out[5] = connection->kind;
    out[6] = connection->checksum;
    out += HEAD_V2;
    memcpy(out, connection->source, address);
    memcpy(out + address, connection->destination, address);
    memcpy(out + 2 * address, connection->source_port, port);
    memcpy(out + 2 * address + port, connection->destination_port, port);
    *length = n;
    return PARSER_ACCEPTED;
}

enum parser_answer stored_load(const uint8_t *form, size_t n, struct parser_connection *connection)
{
    size_t address, port;
    if (n < HEAD_V2 || memcmp(form, mark_v2, sizeof mark_v2) != 0)
        return PARSER_REFUSED;
    address = address_length(form[5]);
    port = port_length(address);
    if (address == NO_KIND || form[6] > (address > 0) || n != HEAD_V2 + 2 * (address + port))
        return PARSER_REFUSED;
    memset(connection, 0, sizeof *connection);
    connection->kind = form[5];
    connection->checksum = form[6];
    form += HEAD_V2;
    memcpy(connection->source, form, address);
    memcpy(connection->destination, form + address, address);
    memcpy(connection->source_port, form + 2 * address, port);
    memcpy(connection->destination_port, form + 2 * address + port, port);
    return PARSER_ACCEPTED;
}

enum parser_answer stored_forward(const uint8_t *form, size_t n, uint8_t *out, size_t room, uint64_t *length)
{
    size_t address;
    if (n < HEAD_V1 || memcmp(form, mark_v1, sizeof mark_v1) != 0)
        return PARSER_REFUSED;
    address = address_length(form[5]);
    if (address == NO_KIND || n != HEAD_V1 + 2 * (address + port_length(address)) || room < n + 1)
        return PARSER_REFUSED;
    memcpy(out, mark_v2, sizeof mark_v2);
    out[5] = form[5];
    out[6] = 0;
    memcpy(out + HEAD_V2, form + HEAD_V1, n - HEAD_V1);
    *length = n + 1;
    return PARSER_ACCEPTED;
}
