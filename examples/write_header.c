/*
 * Writes a connection as a version 1 line and as a version 2 header with a TLV, stores it and loads it again; then an IPv6 line.
 */
#include <dawnhawse.h>
#include <stdio.h>
#include <string.h>

static void print_bytes(const char *what, const uint8_t *bytes, uint64_t length)
{
    printf("%s, %d bytes:", what, (int)length);
    for (uint64_t i = 0; i < length; i++)
        printf("%s%02x", i % 16 ? " " : "\n    ", bytes[i]);
    puts("");
}

/* Whether the version 1 line could be written. */
static int print_line(const uint8_t *connection)
{
    uint8_t line[DAWNHAWSE_LONGEST_V1];
    uint64_t numbers[DAWNHAWSE_NUMBERS];
    int size;
    if (dawnhawse_write_v1(connection, DAWNHAWSE_CONNECTION, line, sizeof line, numbers, DAWNHAWSE_NUMBERS) != DAWNHAWSE_WRITTEN)
        return 0;
    size = (int)numbers[DAWNHAWSE_WRITTEN_LENGTH];
    printf("version 1, %d bytes with CR LF:\n    %.*s\n", size, size - 2, (const char *)line);
    return 1;
}

int main(void)
{
    static const uint8_t source[] = {192, 168, 0, 1}, destination[] = {192, 168, 0, 11};
    static const uint8_t source6[] = {0x20, 0x01, 0x0d, 0xb8, 0, 0, 0, 0, 0, 1, 0, 0, 0, 0, 0, 1};
    static const uint8_t destination6[] = {0x20, 0x01, 0x0d, 0xb8, 0, 0, 0, 0, 0, 0, 0, 0, 0, 0, 0, 2};
    static const uint8_t alpn[] = {0x01, 0, 2, 'h', '2'};
    uint64_t numbers[DAWNHAWSE_NUMBERS];
    uint8_t line[DAWNHAWSE_LONGEST_V1];
    uint8_t header[16 + 216 + sizeof alpn];
    uint8_t stored[DAWNHAWSE_LONGEST_STORED];
    uint8_t loaded[DAWNHAWSE_CONNECTION];
    uint64_t size;
    uint32_t answer;

    /* IPv4 stream, port 56324 to port 443; what the kind does not use is zero. */
    uint8_t connection[DAWNHAWSE_CONNECTION] = {DAWNHAWSE_IP4_STREAM};
    memcpy(connection + DAWNHAWSE_SOURCE, source, sizeof source);
    memcpy(connection + DAWNHAWSE_DESTINATION, destination, sizeof destination);
    connection[DAWNHAWSE_SOURCE_PORT] = 56324 / 256;
    connection[DAWNHAWSE_SOURCE_PORT + 1] = 56324 % 256;
    connection[DAWNHAWSE_DESTINATION_PORT] = 443 / 256;
    connection[DAWNHAWSE_DESTINATION_PORT + 1] = 443 % 256;

    if (!print_line(connection))
        return 1;

    answer = dawnhawse_write_v2(connection, sizeof connection, alpn, sizeof alpn, header, sizeof header, numbers,
                                DAWNHAWSE_NUMBERS);
    if (answer != DAWNHAWSE_WRITTEN)
        return 1;
    print_bytes("version 2", header, numbers[DAWNHAWSE_WRITTEN_LENGTH]);

    /* Without TLVs the area is nothing. A header that has no room, as 28 bytes in 27, is refused, and no byte is changed. */
    answer = dawnhawse_write_v2(connection, sizeof connection, NULL, 0, header, 27, numbers, DAWNHAWSE_NUMBERS);
    printf("version 2 into 27 bytes: %s\n", dawnhawse_answer_name(answer));

    answer = dawnhawse_store(connection, sizeof connection, stored, sizeof stored, numbers, DAWNHAWSE_NUMBERS);
    if (answer != DAWNHAWSE_WRITTEN)
        return 1;
    size = numbers[DAWNHAWSE_WRITTEN_LENGTH];
    print_bytes("stored in version 1", stored, size);

    answer = dawnhawse_load(stored, size, loaded, sizeof loaded);
    printf("loaded: %s, %s\n", dawnhawse_answer_name(answer),
           memcmp(connection, loaded, sizeof loaded) == 0 ? "the same connection" : "another connection");

    /* Version 1 has no word for datagrams. */
    connection[DAWNHAWSE_KIND] = DAWNHAWSE_IP4_DATAGRAM;
    answer = dawnhawse_write_v1(connection, sizeof connection, line, sizeof line, numbers, DAWNHAWSE_NUMBERS);
    printf("version 1 of a datagram: %s\n", dawnhawse_answer_name(answer));

    /* IPv6 addresses are written by RFC 5952: of the two runs of zero groups in the first, as long as each other, the first is "::". */
    connection[DAWNHAWSE_KIND] = DAWNHAWSE_IP6_STREAM;
    memcpy(connection + DAWNHAWSE_SOURCE, source6, sizeof source6);
    memcpy(connection + DAWNHAWSE_DESTINATION, destination6, sizeof destination6);
    return !print_line(connection);
}
