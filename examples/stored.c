/*
 * Stores a connection with its checksum state, in version 2 of the stored form, and loads it again. Then moves a form that an older
 * release has stored from version 1 to version 2, and back.
 */
#include <dawnhawse.h>
#include <stdio.h>
#include <string.h>

/* Types of the PROXY protocol: application protocol, checksum. */
#define ALPN 0x01
#define CRC32C 0x03

/* What came, as in checked.c: 192.168.0.1 to 192.168.0.11, port 56324 to port 443; ALPN; a checksum that is right. */
static const uint8_t header[] = {
    0x0d, 0x0a, 0x0d, 0x0a, 0x00, 0x0d, 0x0a, 'Q', 'U', 'I', 'T', 0x0a,
    0x21, 0x11, 0x00, 12 + 5 + 7,
    192, 168, 0, 1, 192, 168, 0, 11, 0xdc, 0x04, 0x01, 0xbb,
    ALPN, 0, 2, 'h', '2',
    CRC32C, 0, 4, 0x76, 0x32, 0x3a, 0x48,
};

/* What an older release has stored, as in write_header.c: mark, version 1, kind code; the same addresses and ports. */
static const uint8_t older[] = {
    'C', 'S', 'R', 0x00, 0x01, DAWNHAWSE_IP4_STREAM,
    192, 168, 0, 1, 192, 168, 0, 11, 0xdc, 0x04, 0x01, 0xbb,
};

static void print_bytes(const char *what, const uint8_t *bytes, uint64_t length)
{
    printf("%s, %d bytes:", what, (int)length);
    for (uint64_t i = 0; i < length; i++)
        printf("%s%02x", i % 16 ? " " : "\n    ", bytes[i]);
    puts("");
}

static const char *state(const uint8_t *connection)
{
    return connection[DAWNHAWSE_CHECKSUM] == DAWNHAWSE_CHECKSUM_MATCHED ? "matched" : "absent";
}

/* Loads a form of either version. Version 1 is asked first: it knows every form of version 2 by its version, while a form of 6 bytes
   is just too short for version 2. */
static uint32_t load_either(const uint8_t *stored, uint64_t length, uint8_t *connection)
{
    uint32_t answer = dawnhawse_load(stored, length, connection, DAWNHAWSE_CONNECTION);

    if (answer == DAWNHAWSE_WRONG_VERSION)
        answer = dawnhawse_load_v2(stored, length, connection, DAWNHAWSE_CONNECTION);
    return answer;
}

int main(void)
{
    uint64_t numbers[DAWNHAWSE_NUMBERS];
    uint8_t connection[DAWNHAWSE_CONNECTION], loaded[DAWNHAWSE_CONNECTION];
    uint8_t version1[DAWNHAWSE_LONGEST_STORED], version2[DAWNHAWSE_LONGEST_STORED_V2], matched[DAWNHAWSE_LONGEST_STORED_V2];
    uint64_t size;
    uint32_t answer;

    answer = dawnhawse_read_checked(header, sizeof header, numbers, DAWNHAWSE_NUMBERS, connection, sizeof connection);
    printf("checked reading: %s, checksum %s\n", dawnhawse_answer_name(answer), state(connection));

    answer = dawnhawse_store_v2(connection, sizeof connection, matched, sizeof matched, numbers, DAWNHAWSE_NUMBERS);
    if (answer != DAWNHAWSE_WRITTEN)
        return 1;
    size = numbers[DAWNHAWSE_WRITTEN_LENGTH];
    print_bytes("stored in version 2", matched, size);
    answer = load_either(matched, size, loaded);
    printf("loaded: %s, checksum %s, %s\n", dawnhawse_answer_name(answer), state(loaded),
           memcmp(connection, loaded, sizeof loaded) == 0 ? "the same connection" : "another connection");

    /* Version 1 has no place for matched: it is neither stored nor moved back, and no byte is changed. */
    answer = dawnhawse_store(connection, sizeof connection, version1, sizeof version1, numbers, DAWNHAWSE_NUMBERS);
    printf("stored in version 1: %s\n", dawnhawse_answer_name(answer));
    answer = dawnhawse_back(matched, size, version1, sizeof version1, numbers, DAWNHAWSE_NUMBERS);
    printf("moved back to version 1: %s\n", dawnhawse_answer_name(answer));

    answer = load_either(older, sizeof older, loaded);
    printf("an older form loaded: %s, checksum %s\n", dawnhawse_answer_name(answer), state(loaded));
    answer = dawnhawse_forward(older, sizeof older, version2, sizeof version2, numbers, DAWNHAWSE_NUMBERS);
    if (answer != DAWNHAWSE_WRITTEN)
        return 1;
    size = numbers[DAWNHAWSE_WRITTEN_LENGTH];
    print_bytes("moved forward to version 2", version2, size);
    answer = load_either(version2, size, loaded);
    printf("loaded: %s, checksum %s\n", dawnhawse_answer_name(answer), state(loaded));

    answer = dawnhawse_back(version2, size, version1, sizeof version1, numbers, DAWNHAWSE_NUMBERS);
    if (answer != DAWNHAWSE_WRITTEN)
        return 1;
    size = numbers[DAWNHAWSE_WRITTEN_LENGTH];
    printf("moved back to version 1, %d bytes: %s\n", (int)size,
           size == sizeof older && memcmp(older, version1, sizeof older) == 0 ? "the same bytes" : "other bytes");
    return 0;
}
