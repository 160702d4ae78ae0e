/* admit.c: see admit.h. */
#include "admit.h"
#include <string.h>

enum { LOCAL = 0x00, IP4_STREAM = 0x11, IP6_STREAM = 0x21 };
enum { MOST_ROWS = 64, MOST_LEVEL = 3, LONGEST_HEADER = 536, ID_TYPE = 0x05, LONGEST_ID = 128 };

struct row {
    uint8_t family;
    uint8_t bits;
    uint8_t level;
    uint8_t address[16];
};

/* Whether the address is zero behind its first bits. */
static int zero_behind(const uint8_t *address, size_t bits)
{
    size_t i = bits / 8;
    if (bits % 8 != 0 && (address[i++] & 0xff >> bits % 8) != 0)
        return 0;
    for (; i < 16; i++)
        if (address[i] != 0)
            return 0;
    return 1;
}

static int good_table(const struct row *rows, size_t count)
{
    for (size_t i = 0; i < count; i++) {
        const struct row *row = rows + i;
        if (row->family != 4 && row->family != 6)
            return 0;
        if (row->bits > (row->family == 4 ? 32 : 128) || row->level > MOST_LEVEL || !zero_behind(row->address, row->bits))
            return 0;
        for (size_t j = 0; j < i; j++)
            if (row->family == rows[j].family && row->bits == rows[j].bits && memcmp(row->address, rows[j].address, 16) == 0)
                return 0;
    }
    return 1;
}

/* Whether two addresses have the same first bits. */
static int same_bits(const uint8_t *a, const uint8_t *b, size_t bits)
{
    size_t whole = bits / 8;
    return memcmp(a, b, whole) == 0 && (bits % 8 == 0 || ((a[whole] ^ b[whole]) & 0xff00 >> bits % 8) == 0);
}

/* The level of the longest prefix that matches, or 0. */
static size_t level_of(const struct row *rows, size_t count, uint8_t family, const uint8_t *address)
{
    const struct row *longest = NULL;
    for (const struct row *row = rows; row < rows + count; row++)
        if (row->family == family && (longest == NULL || row->bits > longest->bits) && same_bits(row->address, address, row->bits))
            longest = row;
    return longest == NULL ? 0 : longest->level;
}

enum parser_answer admit(const uint8_t *table, size_t size, const uint8_t *bytes, size_t n, struct admitted *caller)
{
    const struct row *rows = (const struct row *)table;
    size_t count = size / sizeof *rows;
    struct parser_header header;
    const uint8_t *p, *end, *id = NULL;
    size_t id_length = 0;
    enum parser_answer answer;
    if (size % sizeof *rows != 0 || count > MOST_ROWS || !good_table(rows, count))
        return PARSER_REFUSED;
    answer = parser_read(bytes, n, &header);
    if (answer != PARSER_ACCEPTED)
        return answer;
    if (header.version != 2 || header.length > LONGEST_HEADER)
        return PARSER_REFUSED;
    caller->level = 0;
    caller->length = header.length;
    caller->id_start = 0;
    caller->id_length = 0;
    if (header.connection.kind == LOCAL)
        return PARSER_ACCEPTED;
    if (header.connection.kind != IP4_STREAM && header.connection.kind != IP6_STREAM)
        return PARSER_REFUSED;
    p = bytes + header.area_start;
    end = p + header.area_length;
    while (p < end) {
        size_t length = (size_t)p[1] << 8 | p[2];
        if (p[0] == ID_TYPE) {
            if (id != NULL || length < 1 || length > LONGEST_ID)
                return PARSER_REFUSED;
            id = p + 3;
            id_length = length;
        }
        p += 3 + length;
    }
    if (id == NULL)
        return PARSER_REFUSED;
    caller->level = level_of(rows, count, header.connection.kind == IP4_STREAM ? 4 : 6, header.connection.source);
    caller->id_start = (size_t)(id - bytes);
    caller->id_length = id_length;
    return PARSER_ACCEPTED;
}
