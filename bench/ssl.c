/* ssl.c: see ssl.h. */
#include "ssl.h"
#include <string.h>

enum { HEAD = 5, TLV_HEAD = 3, FIRST_TYPE = 0x21, OVER_TLS = 0x01, LONGEST = 65535 };

enum parser_answer ssl_read(const uint8_t *value, size_t n, struct ssl_said *said)
{
    const struct ssl_said nothing = {0};
    size_t at = HEAD;
    if (n < HEAD)
        return PARSER_REFUSED;
    *said = nothing;
    said->client = value[0];
    said->verify = (uint32_t)value[1] << 24 | (uint32_t)value[2] << 16 | (uint32_t)value[3] << 8 | value[4];
    while (at < n) {
        const uint8_t *p = value + at;
        size_t length;
        unsigned i;
        if (n - at < TLV_HEAD)
            return PARSER_REFUSED;
        length = (size_t)p[1] << 8 | p[2];
        at += TLV_HEAD;
        if (n - at < length)
            return PARSER_REFUSED;
        i = p[0] - (unsigned)FIRST_TYPE;
        if (i < SSL_PIECES && said->parts[i].start == 0) {
            said->parts[i].start = at;
            said->parts[i].length = length;
        }
        at += length;
    }
    if ((said->client & OVER_TLS) != 0 && said->parts[0].start == 0)
        return PARSER_REFUSED;
    return PARSER_ACCEPTED;
}

enum parser_answer ssl_write(uint8_t client, uint32_t verify, unsigned present, const struct ssl_piece pieces[SSL_PIECES],
    uint8_t *out, size_t room, uint64_t *length)
{
    size_t n = HEAD;
    if ((client & OVER_TLS) != 0 && (present & 1) == 0)
        return PARSER_REFUSED;
    for (unsigned i = 0; i < SSL_PIECES; i++) {
        if ((present >> i & 1) == 0)
            continue;
        if (pieces[i].length > LONGEST)
            return PARSER_REFUSED;
        n += TLV_HEAD + pieces[i].length;
    }
    if (n > LONGEST || room < n)
        return PARSER_REFUSED;
    out[0] = client;
    out[1] = (uint8_t)(verify >> 24);
    out[2] = (uint8_t)(verify >> 16);
    out[3] = (uint8_t)(verify >> 8);
    out[4] = (uint8_t)verify;
    out += HEAD;
    for (unsigned i = 0; i < SSL_PIECES; i++) {
        if ((present >> i & 1) == 0)
            continue;
        out[0] = (uint8_t)(FIRST_TYPE + i);
        out[1] = (uint8_t)(pieces[i].length >> 8);
        out[2] = (uint8_t)pieces[i].length;
        memcpy(out + TLV_HEAD, pieces[i].bytes, pieces[i].length);
        out += TLV_HEAD + pieces[i].length;
    }
    *length = n;
    return PARSER_ACCEPTED;
}
