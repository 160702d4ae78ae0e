/*
 * What the C header itself says, as C99 and as C++: each answer has a name of its own, the fields of a connection and of a table's row
 * fill them, those of the longest stored forms sum up to their lengths, those of a TLV 0x20 fill its numbers and bits, and the release is
 * its three numbers.
 */
#include <dawnhawse.h>
#include <stdio.h>
#include <string.h>

static int passed, failed;

static void check(int holds, const char *what)
{
    if (holds) {
        passed++;
    } else {
        failed++;
        printf("not so: %s\n", what);
    }
}

static int is_answer(uint32_t number)
{
    return number <= DAWNHAWSE_NO_SSL_VERSION || number == DAWNHAWSE_WRONG_CHECKSUM || number == DAWNHAWSE_WRONG_STATE
        || (number >= DAWNHAWSE_NOT_ADMITTED_VERSION && number <= DAWNHAWSE_WRONG_TABLE)
        || (number >= DAWNHAWSE_END && number <= DAWNHAWSE_MORE);
}

int main(void)
{
    const char *other = dawnhawse_answer_name(UINT32_MAX);
    char text[64];
    uint32_t number, another;

    for (number = 0; number < 300; number++) {
        const char *name = dawnhawse_answer_name(number);
        int taken = 0;

        for (another = 0; another < 300; another++)
            taken += strcmp(dawnhawse_answer_name(another), name) == 0;
        snprintf(text, sizeof text, "answer %u has a name of its own", (unsigned)number);
        if (is_answer(number))
            check(taken == 1, text);
        else if (strcmp(name, other) != 0)
            check(0, "every number that is no answer has one name");
    }
    check(DAWNHAWSE_KIND + 1 == DAWNHAWSE_SOURCE && DAWNHAWSE_SOURCE + 108 == DAWNHAWSE_DESTINATION
              && DAWNHAWSE_DESTINATION + 108 == DAWNHAWSE_SOURCE_PORT && DAWNHAWSE_SOURCE_PORT + 2 == DAWNHAWSE_DESTINATION_PORT
              && DAWNHAWSE_DESTINATION_PORT + 2 == DAWNHAWSE_CHECKSUM && DAWNHAWSE_CHECKSUM + 1 == DAWNHAWSE_CONNECTION,
          "the fields of a connection fill it");
    check(DAWNHAWSE_ROW_FAMILY + 1 == DAWNHAWSE_ROW_BITS && DAWNHAWSE_ROW_BITS + 1 == DAWNHAWSE_ROW_LEVEL
              && DAWNHAWSE_ROW_LEVEL + 1 == DAWNHAWSE_ROW_ADDRESS && DAWNHAWSE_ROW_ADDRESS + 16 == DAWNHAWSE_ROW,
          "the fields of a table's row fill it");
    check(3 + 2 + 1 + 108 + 108 == DAWNHAWSE_LONGEST_STORED && 3 + 2 + 1 + 1 + 108 + 108 == DAWNHAWSE_LONGEST_STORED_V2,
          "the fields of the longest stored forms sum up to their lengths");
    check(DAWNHAWSE_SSL_CLIENT + 1 == DAWNHAWSE_SSL_VERIFY && DAWNHAWSE_SSL_VERIFY + 1 == DAWNHAWSE_SSL_VERSION
              && DAWNHAWSE_SSL_VERSION + 2 == DAWNHAWSE_SSL_COMMON_NAME && DAWNHAWSE_SSL_COMMON_NAME + 2 == DAWNHAWSE_SSL_CIPHER
              && DAWNHAWSE_SSL_CIPHER + 2 == DAWNHAWSE_SSL_SIGNATURE && DAWNHAWSE_SSL_SIGNATURE + 2 == DAWNHAWSE_SSL_KEY
              && DAWNHAWSE_SSL_KEY + 2 == DAWNHAWSE_SSL_NUMBERS,
          "client, verify and the pieces of a TLV 0x20 fill its numbers");
    check((DAWNHAWSE_SSL_HAS_VERSION | DAWNHAWSE_SSL_HAS_COMMON_NAME | DAWNHAWSE_SSL_HAS_CIPHER | DAWNHAWSE_SSL_HAS_SIGNATURE
           | DAWNHAWSE_SSL_HAS_KEY) == 0x1f,
          "each piece of a TLV 0x20 has a bit of its own");
    snprintf(text, sizeof text, "%d.%d.%d", DAWNHAWSE_RELEASE_MAJOR, DAWNHAWSE_RELEASE_MINOR, DAWNHAWSE_RELEASE_PATCH);
    check(strcmp(text, DAWNHAWSE_RELEASE) == 0, "the release is its three numbers");
    printf("%d passed, %d failed\n", passed, failed);
    return failed != 0;
}
