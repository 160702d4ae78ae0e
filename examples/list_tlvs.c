/*
 * Reads a version 2 header, walks its TLVs, and looks some up by type.
 */
#include <ctype.h>
#include <dawnhawse.h>
#include <stdio.h>

/* Types of the PROXY protocol: application protocol, host asked for, padding, name of the connection. */
#define ALPN 0x01
#define AUTHORITY 0x02
#define NOOP 0x04
#define UNIQUE_ID 0x05

/* What came: signature; PROXY, IPv4 stream, length; addresses and ports; four TLVs of 5, 17, 3 and 7 bytes; payload. */
static const uint8_t received[] = {
    0x0d, 0x0a, 0x0d, 0x0a, 0x00, 0x0d, 0x0a, 'Q', 'U', 'I', 'T', 0x0a,
    0x21, 0x11, 0x00, 12 + 5 + 17 + 3 + 7,
    192, 168, 0, 1, 192, 168, 0, 11, 0xdc, 0x04, 0x01, 0xbb,
    ALPN, 0, 2, 'h', '2',
    AUTHORITY, 0, 14, 's', 'c', 'r', 'e', 'e', 'n', '.', 'e', 'x', 'a', 'm', 'p', 'l', 'e',
    NOOP, 0, 0,
    UNIQUE_ID, 0, 4, 0x00, 0x00, 0x2a, 0xff,
    'p', 'a', 'y', 'l', 'o', 'a', 'd',
};

static void print_value(const uint8_t *area, const uint64_t *numbers)
{
    const uint8_t *value = area + numbers[DAWNHAWSE_VALUE_START];

    printf(" \"");
    for (uint64_t i = 0; i < numbers[DAWNHAWSE_VALUE_LENGTH]; i++)
        printf(isprint(value[i]) ? "%c" : "\\x%02x", value[i]);
    printf("\"");
}

/* Looks a type up among the first so many TLVs: how many there are, the sender chooses. */
static void look_up(const uint8_t *area, size_t length, uint8_t type, size_t limit)
{
    uint64_t numbers[DAWNHAWSE_NUMBERS];
    uint32_t answer = dawnhawse_lookup(area, length, type, limit, numbers, DAWNHAWSE_NUMBERS);

    printf("type %d: %s, %d examined", type, dawnhawse_answer_name(answer), (int)numbers[DAWNHAWSE_COUNT]);
    if (answer == DAWNHAWSE_FOUND)
        print_value(area, numbers);
    puts("");
}

int main(void)
{
    uint64_t numbers[DAWNHAWSE_NUMBERS];
    uint8_t connection[DAWNHAWSE_CONNECTION];
    const uint8_t *area;
    size_t length, at = 0;
    uint32_t answer;

    answer = dawnhawse_read(received, sizeof received, numbers, DAWNHAWSE_NUMBERS, connection, sizeof connection);
    if (answer != DAWNHAWSE_ACCEPTED) {
        puts(dawnhawse_answer_name(answer));
        return 1;
    }
    area = received + numbers[DAWNHAWSE_AREA_START];
    length = numbers[DAWNHAWSE_AREA_LENGTH];
    printf("header of %d bytes, TLV area of %d\n", (int)numbers[DAWNHAWSE_LENGTH], (int)length);

    /* TLVs fill the area of an accepted header, so the step that looks at one TLV is enough. */
    while ((answer = dawnhawse_next(area, length, at, numbers, DAWNHAWSE_NUMBERS)) == DAWNHAWSE_FOUND) {
        printf("at %d: type %d", (int)at, (int)numbers[DAWNHAWSE_TYPE]);
        print_value(area, numbers);
        puts("");
        at = numbers[DAWNHAWSE_NEXT];
    }
    printf("at %d: %s\n", (int)at, dawnhawse_answer_name(answer));

    look_up(area, length, AUTHORITY, 16);
    look_up(area, length, 0xe0, 16);
    look_up(area, length, UNIQUE_ID, 3);
    return 0;
}
