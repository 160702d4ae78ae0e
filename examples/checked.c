/*
 * Reads version 2 headers and compares their checksums: one as it was sent, one damaged on the way, one without a checksum. Then
 * writes a header with a checksum.
 */
#include <dawnhawse.h>
#include <stdio.h>
#include <string.h>

/* Types of the PROXY protocol: application protocol, checksum. */
#define ALPN 0x01
#define CRC32C 0x03

/* Signature; PROXY, IPv4 stream, length; 192.168.0.1 to 192.168.0.11, port 56324 to port 443; ALPN. */
#define HEADER(LENGTH)                                                  \
    0x0d, 0x0a, 0x0d, 0x0a, 0x00, 0x0d, 0x0a, 'Q', 'U', 'I', 'T', 0x0a, \
    0x21, 0x11, 0x00, LENGTH,                                           \
    192, 168, 0, 1, 192, 168, 0, 11, 0xdc, 0x04, 0x01, 0xbb,            \
    ALPN, 0, 2, 'h', '2'

/* The checksum is that of the 40 bytes with zeros in its place. It was worked out by other means than this library: bit by bit, as the
   remainder of a long division by the polynomial 0x11edc6f41 (RFC 4960 appendix B). */
static const uint8_t sent[] = {HEADER(12 + 5 + 7), CRC32C, 0, 4, 0x76, 0x32, 0x3a, 0x48};
static const uint8_t without[] = {HEADER(12 + 5)};

#define LAST_OF_SOURCE_PORT 25

static void print(const char *what, uint32_t answer, const uint8_t *connection)
{
    const uint8_t *port = connection + DAWNHAWSE_SOURCE_PORT;

    printf("%s: %s", what, dawnhawse_answer_name(answer));
    if (answer == DAWNHAWSE_ACCEPTED)
        printf(", port %d, checksum %s", port[0] * 256 + port[1],
               connection[DAWNHAWSE_CHECKSUM] == DAWNHAWSE_CHECKSUM_MATCHED ? "matched" : "absent");
    puts("");
}

static void read_both(const char *what, const uint8_t *bytes, size_t length)
{
    uint64_t numbers[DAWNHAWSE_NUMBERS];
    uint8_t connection[DAWNHAWSE_CONNECTION];
    uint32_t answer;

    puts(what);
    answer = dawnhawse_read(bytes, length, numbers, DAWNHAWSE_NUMBERS, connection, sizeof connection);
    print("    plain reading", answer, connection);
    answer = dawnhawse_read_checked(bytes, length, numbers, DAWNHAWSE_NUMBERS, connection, sizeof connection);
    print("    checked reading", answer, connection);
}

int main(void)
{
    static const uint8_t alpn[] = {ALPN, 0, 2, 'h', '2'};
    uint64_t numbers[DAWNHAWSE_NUMBERS];
    uint8_t connection[DAWNHAWSE_CONNECTION];
    uint8_t damaged[sizeof sent], written[sizeof sent];
    uint32_t answer;

    /* One bit of the source port is another. */
    memcpy(damaged, sent, sizeof sent);
    damaged[LAST_OF_SOURCE_PORT] ^= 0x01;

    read_both("as sent", sent, sizeof sent);
    read_both("damaged", damaged, sizeof damaged);
    read_both("without a checksum", without, sizeof without);

    /* The connection of a checked reading, written with the TLVs that stood before the checksum. */
    answer = dawnhawse_read_checked(sent, sizeof sent, numbers, DAWNHAWSE_NUMBERS, connection, sizeof connection);
    if (answer != DAWNHAWSE_ACCEPTED)
        return 1;
    answer = dawnhawse_write_v2_checked(connection, sizeof connection, alpn, sizeof alpn, written, sizeof written, numbers,
                                        DAWNHAWSE_NUMBERS);
    printf("written with a checksum: %s, %d bytes, %s\n", dawnhawse_answer_name(answer), (int)numbers[DAWNHAWSE_WRITTEN_LENGTH],
           memcmp(written, sent, sizeof sent) == 0 ? "as sent" : "others than sent");

    /* Where no checksum is written there is none to match: such a header is written of a connection that says absent only. */
    answer = dawnhawse_write_v2(connection, sizeof connection, alpn, sizeof alpn, written, sizeof written, numbers,
                                DAWNHAWSE_NUMBERS);
    printf("written without one: %s", dawnhawse_answer_name(answer));
    connection[DAWNHAWSE_CHECKSUM] = DAWNHAWSE_CHECKSUM_ABSENT;
    answer = dawnhawse_write_v2(connection, sizeof connection, alpn, sizeof alpn, written, sizeof written, numbers,
                                DAWNHAWSE_NUMBERS);
    printf(", once set to absent %s, %d bytes\n", dawnhawse_answer_name(answer), (int)numbers[DAWNHAWSE_WRITTEN_LENGTH]);

    printf("CRC32C of \"123456789\": %08x\n", (unsigned)dawnhawse_crc32c((const uint8_t *)"123456789", 9));
    return 0;
}
