/*
 * Reads what a TLS front end said of its client, in TLV 0x20 of a version 2 header, and writes such a value.
 */
#include <dawnhawse.h>
#include <stdio.h>

/* What came: signature; PROXY, IPv4 stream, length; addresses and ports; TLV 0x20: client, verify, four sub-TLVs; payload. */
static const uint8_t received[] = {
    0x0d, 0x0a, 0x0d, 0x0a, 0x00, 0x0d, 0x0a, 'Q', 'U', 'I', 'T', 0x0a,
    0x21, 0x11, 0x00, 12 + 3 + 5 + 10 + 11 + 25 + 3,
    192, 168, 0, 1, 192, 168, 0, 11, 0xdc, 0x04, 0x01, 0xbb,
    DAWNHAWSE_SSL, 0, 5 + 10 + 11 + 25 + 3,
    DAWNHAWSE_SSL_CLIENT_TLS | DAWNHAWSE_SSL_CLIENT_CONNECTION, 0, 0, 0, 0,
    0x21, 0, 7, 'T', 'L', 'S', 'v', '1', '.', '3',
    0x22, 0, 8, 't', 'e', 's', 't', 'e', 'r', '-', '7',
    0x23, 0, 22, 'T', 'L', 'S', '_', 'A', 'E', 'S', '_', '2', '5', '6', '_', 'G', 'C', 'M', '_', 'S', 'H', 'A', '3', '8', '4',
    0x24, 0, 0,
    'p', 'a', 'y', 'l', 'o', 'a', 'd',
};

/* A piece is absent, or so many bytes of the value, whatever these are; an empty one is there. */
static void print_piece(const char *name, const uint8_t *value, const uint64_t *piece)
{
    if (piece[0] == 0) {
        printf("%s: absent\n", name);
        return;
    }
    printf("%s: \"", name);
    fwrite(value + piece[0], 1, piece[1], stdout);
    puts("\"");
}

static void print_value(const uint8_t *value, size_t length)
{
    uint64_t said[DAWNHAWSE_SSL_NUMBERS];
    uint32_t answer = dawnhawse_read_ssl(value, length, said, DAWNHAWSE_SSL_NUMBERS);

    printf("value of %d bytes: %s, client %d, verify %lu\n", (int)length, dawnhawse_answer_name(answer), (int)said[DAWNHAWSE_SSL_CLIENT],
           (unsigned long)said[DAWNHAWSE_SSL_VERIFY]);
    print_piece("version", value, said + DAWNHAWSE_SSL_VERSION);
    print_piece("common name", value, said + DAWNHAWSE_SSL_COMMON_NAME);
    print_piece("cipher", value, said + DAWNHAWSE_SSL_CIPHER);
    print_piece("signature", value, said + DAWNHAWSE_SSL_SIGNATURE);
    print_piece("key", value, said + DAWNHAWSE_SSL_KEY);
}

int main(void)
{
    uint64_t numbers[DAWNHAWSE_NUMBERS];
    uint8_t connection[DAWNHAWSE_CONNECTION], value[64];
    const uint8_t *area;
    uint32_t answer;

    answer = dawnhawse_read(received, sizeof received, numbers, DAWNHAWSE_NUMBERS, connection, sizeof connection);
    if (answer != DAWNHAWSE_ACCEPTED) {
        puts(dawnhawse_answer_name(answer));
        return 1;
    }
    area = received + numbers[DAWNHAWSE_AREA_START];
    answer = dawnhawse_lookup(area, numbers[DAWNHAWSE_AREA_LENGTH], DAWNHAWSE_SSL, 16, numbers, DAWNHAWSE_NUMBERS);
    if (answer != DAWNHAWSE_FOUND) {
        puts(dawnhawse_answer_name(answer));
        return 1;
    }
    print_value(area + numbers[DAWNHAWSE_VALUE_START], numbers[DAWNHAWSE_VALUE_LENGTH]);

    /* A front end of ours, whose client has no certificate: verify is not 0, and there is no common name. */
    answer = dawnhawse_write_ssl(DAWNHAWSE_SSL_CLIENT_TLS, 1, DAWNHAWSE_SSL_HAS_VERSION, (const uint8_t *)"TLSv1.2", 7, NULL, 0, NULL, 0,
                                 NULL, 0, NULL, 0, value, sizeof value, numbers, DAWNHAWSE_NUMBERS);
    if (answer == DAWNHAWSE_WRITTEN)
        print_value(value, numbers[DAWNHAWSE_WRITTEN_LENGTH]);

    /* Over TLS, and no version. */
    answer = dawnhawse_write_ssl(DAWNHAWSE_SSL_CLIENT_TLS, 1, 0, NULL, 0, NULL, 0, NULL, 0, NULL, 0, NULL, 0, value, sizeof value, numbers,
                                 DAWNHAWSE_NUMBERS);
    puts(dawnhawse_answer_name(answer));
    return 0;
}
